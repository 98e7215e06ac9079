//! What no contract of a write can say, as it sees only entry and exit: which bytes are loaded and stored meanwhile, how often and in
//! which order; of a format, a grow, an advance and a continue in which order they store; and of a sweep, which stripes it reads, and
//! that it stores nothing. Read off a memory trace of tests/c/stores.c, by valgrind's lackey.

use std::collections::{BTreeMap, BTreeSet};
use std::ops::Range;
use std::process::Command;
use std::sync::OnceLock;
use yuzkamide_tests::compile::{program, run, text};
use yuzkamide_tests::images::place;
use yuzkamide_tests::layout::{Layout, Owner};
use yuzkamide_tests::out::{self, Disk, Out};
use yuzkamide_tests::record::{Health, Record, RECORD_LEN};
use yuzkamide_tests::trace::{calls, Access};

/// n, m, T, t and a block.
type Block = (u64, u64, u64, u64, u64);

/// Before a growth; in the middle of one an old block that was moved, as was its parity, and a new one; a new block of the widest
/// array. None is in the last stripe, so that a rebuild can have done its stripe and be under way.
const BLOCKS: [Block; 4] = [
    (3, 0, 3, 0, 3),
    (5, 3, 41, 22, 20),
    (5, 3, 41, 22, 170),
    (16, 16, 3, 0, 76),
];

const LENGTHS: [u64; 13] = [1, 15, 16, 17, 63, 64, 65, 100, 127, 129, 1000, 4095, 4096];

/// From this length on a write stores as many bytes to its stack as with any other.
const LONG: u64 = 64;

/// "There are 16 KiB of stack left for a call."
const STACK: u64 = 16 * 1024;

/// A write, and where the layout has its block and the parity.
#[derive(Clone, Copy, Debug)]
struct Case {
    record: Record,
    block: u64,
    out: Out,
    stripe: u64,
    data: u64,
    parity: u64,
}

impl Case {
    fn new(at: Block, out: Out, block_len: u64) -> Case {
        let (n, m, stripes, moves, block) = at;
        let home = Record::new(n, block_len, stripes);
        let record = Record { m, moves, ..home };
        let layout = Layout::of(&record);
        let (stripe, data) = layout.place(block);
        let mut case = Case {
            record,
            block,
            out,
            stripe,
            data,
            parity: layout.parity(stripe),
        };
        let disk = out.disk().map_or(0, |disk| case.disk(disk));
        case.record.health = out.health(disk, stripe);
        case
    }

    fn disk(&self, disk: Disk) -> u64 {
        match disk {
            Disk::Data => self.data,
            Disk::Parity => self.parity,
            Disk::Other => self.others()[0],
        }
    }

    /// The disks of neither data nor parity.
    fn others(&self) -> Vec<u64> {
        out::others(self.record.disks(), self.data, self.parity)
    }

    /// The disks of the places that it stores. "either is skipped if its disk is out"
    fn stored(&self) -> Vec<u64> {
        match self.out.absent() {
            None | Some(Disk::Other) => vec![self.data, self.parity],
            Some(Disk::Data) => vec![self.parity],
            Some(Disk::Parity) => vec![self.data],
        }
    }

    /// The disks of the places that the new bytes depend on. With the data's disk out the old block is the xor of the stripe's other
    /// places; one of these is the parity, whose old value so cancels.
    fn loaded(&self) -> Vec<u64> {
        match self.out.absent() {
            None | Some(Disk::Other) => vec![self.data, self.parity],
            Some(Disk::Data) => self.others(),
            Some(Disk::Parity) => vec![],
        }
    }

    fn place(&self, disk: u64) -> Range<usize> {
        place(&self.record, self.stripe, disk)
    }

    /// A byte that is not counted as it should be, if there is one: once on the stripe's places on these disks, and else not.
    fn fault(&self, counts: &Counts, disks: &[u64]) -> Option<String> {
        let places = disks.iter().flat_map(|&disk| self.place(disk));
        let wanted: Counts = places.map(|at| (at, 1)).collect();
        let count = |counts: &Counts, at| counts.get(at).copied().unwrap_or(0);
        let mut all = wanted.keys().chain(counts.keys());
        let at = all.find(|at| count(counts, at) != count(&wanted, at))?;
        let Record {
            block_len, stripes, ..
        } = self.record;
        let (place, byte) = (*at as u64 / block_len, *at as u64 % block_len);
        let (stripe, disk) = (place % stripes, place / stripes);
        let times = count(counts, at);
        Some(format!(
            "byte {byte} of stripe {stripe} on disk {disk}: {times} times"
        ))
    }

    /// Whether the bytes of the parity come first, then those of the data, and no others.
    fn is_parity_first(&self, order: &[usize]) -> bool {
        let (data, parity) = (self.place(self.data), self.place(self.parity));
        let mut behind = order.iter().skip_while(|at| parity.contains(at));
        behind.all(|at| data.contains(at))
    }

    fn argument(&self, name: char, number: u64) -> String {
        argument(&self.record, name, number)
    }
}

/// A call as tests/c/stores.c reads it.
fn argument(record: &Record, name: char, number: u64) -> String {
    let digits = record.bytes().map(|byte| format!("{byte:02x}"));
    format!("{name}{}:{number}", digits.concat())
}

/// How often bytes of the images occurred.
type Counts = BTreeMap<usize, u32>;

/// What one call did.
#[derive(Debug, Default, PartialEq, Eq)]
struct Seen {
    loaded: Counts,
    stored: Counts,
    /// The bytes of the images that were stored, in order.
    order: Vec<usize>,
    /// How many bytes were stored to the stack.
    stack: u64,
    /// The addresses of all other bytes that were stored.
    elsewhere: BTreeSet<u64>,
}

/// Where the program says that things stand.
struct Addresses {
    record: u64,
    images: u64,
    /// The count of an advance or a continue.
    made: u64,
    /// The three numbers of a sweep.
    swept: u64,
    /// Stored to by what stands for the C library's functions.
    helped: u64,
    stack: u64,
}

impl Addresses {
    fn seen(&self, images_len: u64, call: &[Access]) -> Seen {
        let images = self.images..self.images + images_len;
        let stack = self.stack - STACK..self.stack;
        let mut seen = Seen::default();
        for access in call {
            for byte in access.bytes() {
                let at = images
                    .contains(&byte)
                    .then(|| (byte - images.start) as usize);
                if let Some(at) = at.filter(|_| access.loads) {
                    *seen.loaded.entry(at).or_default() += 1;
                }
                match at {
                    _ if !access.stores => {}
                    Some(at) => {
                        *seen.stored.entry(at).or_default() += 1;
                        seen.order.push(at);
                    }
                    None if stack.contains(&byte) => seen.stack += 1,
                    None => {
                        seen.elsewhere.insert(byte);
                    }
                }
            }
        }
        seen
    }
}

/// Every block of `BLOCKS` with everything of `out::ALL` and with every length, in this order; but in the widest array, whose sums
/// take long to trace, without rebuilds.
fn cases() -> Vec<Case> {
    let mut all = Vec::new();
    for at in BLOCKS {
        let is_widest = at.0 + at.1 == 32;
        let is_rebuild = |out: &Out| matches!(out, Out::Done(_) | Out::Undone(_));
        for out in out::ALL.iter().filter(|out| !is_widest || !is_rebuild(out)) {
            all.extend(LENGTHS.map(|block_len| Case::new(at, *out, block_len)));
        }
    }
    all
}

/// Makes these calls under lackey, by a program of this name.
fn traced(name: &str, arguments: &[String]) -> (Addresses, Vec<Vec<Access>>) {
    // with loops that stay loops: the program has a memmove of its own
    let compiler = ["gcc", "-std=c11", "-O1", "-fno-builtin"];
    let program = program(name, &compiler, &["tests/c/stores.c"]);
    let output = run(Command::new("valgrind")
        .args(["--tool=lackey", "--trace-mem=yes", "--basic-counts=no"])
        .arg(program)
        .args(arguments));
    let told = text(&output.stdout);
    let address = |name: &str| {
        let mut lines = told.lines().filter_map(|line| line.split_once(' '));
        let (_, digits) = lines.find(|(first, _)| *first == name).expect(name);
        u64::from_str_radix(digits, 16).unwrap()
    };
    let calls = calls(text(&output.stderr), address("begin"), address("end"));
    assert_eq!(calls.len(), arguments.len(), "the trace has all marks");
    let addresses = Addresses {
        record: address("record"),
        images: address("images"),
        made: address("made"),
        swept: address("swept"),
        helped: address("helped"),
        stack: address("stack"),
    };
    (addresses, calls)
}

/// The writes of `cases`; the tests share one trace of them.
fn writes() -> &'static [(Case, Seen)] {
    static WRITES: OnceLock<Vec<(Case, Seen)>> = OnceLock::new();
    WRITES.get_or_init(|| {
        let cases = cases();
        let arguments: Vec<String> = cases.iter().map(|c| c.argument('w', c.block)).collect();
        let (addresses, calls) = traced("stores-of-writes", &arguments);
        let seen = |(case, call): (Case, Vec<Access>)| {
            let seen = addresses.seen(case.record.images_len(), &call);
            (case, seen)
        };
        let all: Vec<_> = cases.into_iter().zip(calls).map(seen).collect();
        assert_eq!(all.len(), 442);
        all
    })
}

/// "store each parity byte once": each byte of parity and data whose disk is in, and no other one of images, record and data.
#[test]
fn each_byte_is_stored_once() {
    for (case, seen) in writes() {
        assert_eq!(case.fault(&seen.stored, &case.stored()), None, "{case:?}");
        assert_eq!(seen.elsewhere, BTreeSet::new(), "{case:?}");
    }
}

/// "One pass", "straight from image": no byte of the images is loaded that the new ones do not depend on, and none twice.
#[test]
fn each_byte_is_loaded_once() {
    for (case, seen) in writes() {
        assert_eq!(case.fault(&seen.loaded, &case.loaded()), None, "{case:?}");
    }
}

#[test]
fn the_parity_is_stored_before_the_data() {
    for (case, seen) in writes() {
        assert!(case.is_parity_first(&seen.order), "{case:?}");
    }
}

/// "no array for block bytes": how much is stored to the stack does not depend on how long a block is.
#[test]
fn no_block_is_on_the_stack() {
    for lengths in writes().chunks(LENGTHS.len()) {
        let long = lengths.iter().filter(|(c, _)| c.record.block_len >= LONG);
        let stored: Vec<u64> = long.map(|(_, seen)| seen.stack).collect();
        assert_eq!(stored, [stored[0]; 8], "{:?}", lengths[0].0);
    }
}

/// A call that does what a write may not is seen to do it: a continue has an array for block bytes, and it stores the record, after
/// the images.
#[test]
fn a_continue_is_seen_to_do_more() {
    let out = Out::Undone(Disk::Data);
    let cases = [64, 4096].map(|block_len| Case::new(BLOCKS[0], out, block_len));
    let (addresses, calls) = traced("stores-of-continues", &cases.map(|c| c.argument('c', 1)));
    let record = addresses.record..addresses.record + RECORD_LEN as u64;
    let made = addresses.made..addresses.made + 8;
    let stack = [0, 1].map(|i| {
        let case = cases[i];
        let images_len = case.record.images_len();
        let images = addresses.images..addresses.images + images_len;
        let mut seen = addresses.seen(images_len, &calls[i]);
        assert_eq!(case.fault(&seen.stored, &[case.data]), None, "{case:?}");
        assert!(stores(&calls[i], images).max() < stores(&calls[i], record.clone()).min());
        assert!(seen.elsewhere.remove(&addresses.helped));
        assert!(made.clone().all(|byte| seen.elsewhere.remove(&byte)));
        assert!(seen.elsewhere.iter().all(|byte| record.contains(byte)));
        seen.stack
    });
    assert!(stack[1] > stack[0] + 4000, "{stack:?}");
}

/// "does stripes in rising order", and the record after them all, where that ends the rebuild too.
#[test]
fn a_continue_stores_in_rising_order() {
    let case = Case::new(BLOCKS[0], Out::Undone(Disk::Data), 64);
    let (addresses, calls) = traced("stores-of-a-rest", &[case.argument('c', u64::MAX)]);
    let Health::Rebuilding { disk, done } = case.record.health else {
        panic!("{case:?}")
    };
    assert!(done + 1 < case.record.stripes, "two stripes are left");
    let mut last = None;
    for stripe in done..case.record.stripes {
        let Range { start, end } = place(&case.record, stripe, disk);
        let bytes = addresses.images + start as u64..addresses.images + end as u64;
        let at: Vec<usize> = stores(&calls[0], bytes).collect();
        assert!(last < at.first().copied(), "stripe {stripe}");
        last = at.last().copied();
    }
    let record = addresses.record..addresses.record + RECORD_LEN as u64;
    assert!(last.is_some() && last < stores(&calls[0], record).min());
}

/// "zeroes the images", "zeroes those behind the first n": each byte once, disk by disk, and the record after them all.
#[test]
fn format_and_grow_store_their_record_last() {
    let home = Record::new(3, 64, 5);
    let more = 2;
    let arguments = [('f', home.stripes), ('g', more)].map(|(c, k)| argument(&home, c, k));
    let (addresses, calls) = traced("stores-of-zeroes", &arguments);
    let record = addresses.record..addresses.record + RECORD_LEN as u64;
    let old = home.images_len() as usize;
    let all = old / home.n as usize * (home.n + more) as usize;
    for (call, zeroed) in calls.iter().zip([0..old, old..all]) {
        let seen = addresses.seen(all as u64, call);
        assert_eq!(seen.order, Vec::from_iter(zeroed));
        let images = addresses.images..addresses.images + all as u64;
        assert!(stores(call, images).max() < stores(call, record.clone()).min());
    }
}

/// The count of an advance is stored after the record, and that of a continue before it; the record after the images.
#[test]
fn counts_keep_to_their_side_of_the_record() {
    let grown = Record {
        m: 2,
        ..Record::new(3, 64, 15)
    };
    let rebuilding = Case::new(BLOCKS[0], Out::Undone(Disk::Data), 64);
    let arguments = [argument(&grown, 'a', 7), rebuilding.argument('c', 1)];
    let (addresses, calls) = traced("stores-of-counts", &arguments);
    let images_len = grown.images_len().max(rebuilding.record.images_len());
    let images = addresses.images..addresses.images + images_len;
    let record = addresses.record..addresses.record + RECORD_LEN as u64;
    let made = addresses.made..addresses.made + 8;
    let in_order = |call: &[Access], parts: [&Range<u64>; 3]| {
        let at = parts.map(|bytes| stores(call, bytes.clone()).collect::<Vec<_>>());
        at.iter().all(|part| !part.is_empty()) && at.concat().is_sorted()
    };
    assert!(in_order(&calls[0], [&images, &record, &made]));
    assert!(in_order(&calls[1], [&images, &made, &record]));
    assert!(!in_order(&calls[0], [&images, &made, &record]));
}

/// When a call stores to these bytes.
fn stores(call: &[Access], bytes: Range<u64>) -> impl Iterator<Item = usize> + '_ {
    let is_there = move |access: &Access| access.stores && bytes.contains(&access.bytes().start);
    (0..call.len()).filter(move |&at| is_there(&call[at]))
}

// ---- sweeps

/// n, m, T and t: before a growth; in a growth with a tail, of few disks and of more than are summed at once, a zone finished and the
/// next one begun; after a growth that grow itself has ended.
const SWEPT: [(u64, u64, u64, u64); 4] = [
    (3, 0, 3, 0),
    (5, 3, 41, 22),
    (3, 16, 59, 50),
    (16, 16, 3, 0),
];

const SWEPT_LENGTHS: [u64; 3] = [1, 65, 300];

/// A sweep over zeroes but for some bytes.
#[derive(Debug)]
struct Sweep {
    record: Record,
    not_zero: Vec<usize>,
    /// The one stripe that they make unsound, if there are any.
    unsound: Option<u64>,
}

impl Sweep {
    fn argument(&self) -> String {
        let bytes = self.not_zero.iter().map(|at| format!(",{at}"));
        let list: String = bytes.collect();
        argument(&self.record, 's', self.not_zero.len() as u64) + &list
    }

    /// How many stripes it is to read.
    fn read(&self) -> u64 {
        self.unsound
            .map_or(self.record.stripes, |stripe| stripe + 1)
    }

    fn stripe_of(&self, at: usize) -> u64 {
        at as u64 / self.record.block_len % self.record.stripes
    }
}

/// With no byte off; and with one off in the first stripe, in one of the middle or in the last one: on the highest disk, or on a blank
/// and on the parity's disk too, so that the sum is zero.
fn sweeps() -> Vec<Sweep> {
    let mut all = Vec::new();
    for ((n, m, stripes, moves), block_len) in
        SWEPT.iter().flat_map(|s| SWEPT_LENGTHS.map(|b| (*s, b)))
    {
        let home = Record::new(n, block_len, stripes);
        let record = Record { m, moves, ..home };
        let layout = Layout::of(&record);
        let mut add = |unsound: Option<u64>, disks: &[u64]| {
            let last = |disk: &u64| place(&record, unsound.unwrap(), *disk).end - 1;
            let not_zero = disks.iter().map(last).collect();
            all.push(Sweep {
                record,
                not_zero,
                unsound,
            });
        };
        add(None, &[]);
        for stripe in [0, stripes / 2, stripes - 1] {
            let is_blank = |disk: &u64| layout.owner(stripe, *disk) == Owner::Blank;
            add(Some(stripe), &[n + m - 1]);
            if let Some(blank) = (0..n + m).find(is_blank) {
                add(Some(stripe), &[blank, layout.parity(stripe)]);
            }
        }
    }
    all
}

/// "The sweep stops there and gives the stripe and the stripes read": just these are loaded from, all of those that are sound as a whole,
/// and nothing is stored but the three numbers.
#[test]
fn a_sweep_reads_the_stripes_that_it_tells() {
    let sweeps = sweeps();
    let is_by_blank = |sweep: &&Sweep| sweep.not_zero.len() == 2;
    let by_blank = sweeps.iter().filter(is_by_blank).count();
    assert_eq!((sweeps.len(), by_blank), (60, 12));
    let arguments: Vec<String> = sweeps.iter().map(Sweep::argument).collect();
    let (addresses, calls) = traced("stores-of-sweeps", &arguments);
    let numbers: BTreeSet<u64> = (addresses.swept..addresses.swept + 24).collect();
    for (sweep, call) in sweeps.iter().zip(calls) {
        let record = &sweep.record;
        let mut seen = addresses.seen(record.images_len(), &call);
        seen.elsewhere.remove(&addresses.helped);
        assert_eq!(seen.elsewhere, numbers, "{sweep:?}");
        assert_eq!(seen.stored, Counts::new(), "{sweep:?}");
        let stripes: BTreeSet<u64> = seen.loaded.keys().map(|at| sweep.stripe_of(*at)).collect();
        assert!(stripes.into_iter().eq(0..sweep.read()), "{sweep:?}");
        let sound = sweep.unsound.unwrap_or(record.stripes);
        let is_of_sound = |at: &&usize| sweep.stripe_of(**at) < sound;
        let loaded = seen.loaded.keys().filter(is_of_sound).count() as u64;
        assert_eq!(
            loaded,
            record.disks() * sound * record.block_len,
            "{sweep:?}"
        );
    }
}

// ---- the reading of a trace

#[test]
fn calls_are_between_marks() {
    let trace = "\
==1== Lackey, an example Valgrind tool
I  04001000,3
 S 1ffe,8
 S 10,1
I  04001003,4
 L 20,4
 M 1f,2
 S 11,1
 L 30,1
 S 10,1
 S 11,1
";
    let calls = calls(trace, 0x10, 0x11);
    let told = |a: &Access| (a.bytes(), a.loads, a.stores);
    let first: Vec<_> = calls[0].iter().map(told).collect();
    assert_eq!(first, [(0x20..0x24, true, false), (0x1f..0x21, true, true)]);
    assert_eq!(calls[1..], [vec![]]);
}

/// What is seen in the trace of a call on images of 6 bytes at address 100 (hexadecimal).
fn seen(trace: &str) -> Seen {
    let addresses = Addresses {
        record: 0,
        images: 0x100,
        made: 0,
        swept: 0,
        helped: 0,
        stack: 0x10000,
    };
    let marked = format!(" S 10,1\n{trace} S 11,1\n");
    addresses.seen(6, &calls(&marked, 0x10, 0x11)[0])
}

/// On 3 disks of 2 bytes: the data's is at address 101, the parity's at 103.
#[test]
fn what_is_counted() {
    let case = Case::new((3, 0, 2, 0, 3), Out::None, 1);
    assert_eq!((case.stripe, case.data, case.parity), (1, 0, 1));
    let right = seen(" L 101,1\n M 103,1\n L ffff,1\n S fff8,8\n S 101,1\n");
    assert_eq!(right.order, [3, 1]);
    assert_eq!((right.stack, right.elsewhere.len()), (8, 0));
    assert_eq!(case.fault(&right.loaded, &case.loaded()), None);
    assert_eq!(case.fault(&right.stored, &case.stored()), None);
    assert!(case.is_parity_first(&right.order));
    for (trace, fault) in [
        (" S 103,1\n", "byte 0 of stripe 1 on disk 0: 0 times"),
        (
            " S 103,1\n S 101,1\n S 103,1\n",
            "byte 0 of stripe 1 on disk 1: 2 times",
        ),
        (
            " S 101,2\n S 103,1\n",
            "byte 0 of stripe 0 on disk 1: 1 times",
        ),
    ] {
        let wrong = seen(trace);
        let found = case.fault(&wrong.stored, &case.stored());
        assert_eq!(found.as_deref(), Some(fault));
    }
    assert!(!case.is_parity_first(&seen(" S 101,1\n S 103,1\n").order));
    assert!(!case.is_parity_first(&seen(" S 103,1\n S 101,1\n S 103,1\n").order));
    assert_eq!(seen(" S ff,8\n").elsewhere, BTreeSet::from([0xff, 0x106]));
}
