//! Request (g) of document 02, the stripe and the count: one bit off in every place, before, in and after growths; several stripes;
//! errors that cancel each other; any images, and those of another layout, against a check that goes by the documents. That a sweep
//! stops: the pages after the stripe that it finds are closed. That what the library writes is sound, and what it rebuilds. Where
//! images are in pages they are lent for reading alone: a byte of them that is written ends the run, as does one outside of them that
//! is touched.

use std::collections::BTreeMap;
use std::process::{Command, Output};
use yuzkamide_tests::array::Array;
use yuzkamide_tests::caller::any_tail;
use yuzkamide_tests::flat::swept;
use yuzkamide_tests::images::{part, place, unsound, xor};
use yuzkamide_tests::layout::{Layout, Owner};
use yuzkamide_tests::memory::{on_fault_tell, Guarded, Memory, Side};
use yuzkamide_tests::pbm::{Answer, Bytes, Call, Loan};
use yuzkamide_tests::random::Random;
use yuzkamide_tests::record::{Health, Record};

/// n, m and T.
type Shape = (u64, u64, u64);

/// On both sides of the 64 and the 128 bytes that are summed at once, with and without a rest; the shortest and the longest.
const LENGTHS: [u64; 15] = [
    1, 7, 16, 63, 64, 65, 127, 128, 129, 192, 200, 255, 256, 300, 4096,
];

fn record((n, m, stripes): Shape, moves: u64, block_len: u64) -> Record {
    let home = Record::new(n, block_len, stripes);
    Record { m, moves, ..home }
}

/// Counts of moves: all of a short growth; of a long one none, some and all, on both sides of the ends of zones.
fn counts(shape: Shape) -> Vec<u64> {
    let (total, zone) = (record(shape, 0, 1).total(), shape.0 * shape.1);
    match total {
        0..=80 => (0..=total).collect(),
        _ => {
            let ends = [zone, total - zone].map(|t| [t - 1, t, t + 1]);
            [&[0, 1], &ends.concat()[..], &[total - 1, total]].concat()
        }
    }
}

/// What stands on a place, whatever its number.
#[derive(Clone, Copy, Debug, PartialEq, Eq, PartialOrd, Ord)]
enum Role {
    Blank,
    Parity,
    Data,
}

/// A bit of a block: its byte, and the value that it has there.
type Bit = (usize, u8);

fn any_bit(random: &mut Random, block_len: u64) -> Bit {
    (random.below(block_len) as usize, 1 << random.below(8))
}

/// Any blocks, with the parity that makes each stripe xor to zero, and zero blanks.
fn sound_images(random: &mut Random, record: &Record) -> Vec<u8> {
    let layout = Layout::of(record);
    let mut images = random.bytes(record.images_len() as usize);
    for stripe in 0..record.stripes {
        let mut sum = vec![0; record.block_len as usize];
        for disk in 0..record.disks() {
            let bytes = &mut images[place(record, stripe, disk)];
            match layout.owner(stripe, disk) {
                Owner::Data(_) => xor(&mut sum, bytes),
                Owner::Blank => bytes.fill(0),
                Owner::Parity => {}
            }
        }
        images[place(record, stripe, layout.parity(stripe))].copy_from_slice(&sum);
    }
    images
}

/// The record of a whole array, and images.
struct Cabinet {
    record: Record,
    layout: Layout,
    loan: Loan<Guarded>,
}

impl Cabinet {
    fn of(side: Side, record: Record, images: Vec<u8>) -> Cabinet {
        let mut loan = Loan::guarded(side);
        loan.lend(&Bytes {
            record: record.bytes().to_vec(),
            images,
            block: Vec::new(),
        });
        Cabinet {
            record,
            layout: Layout::of(&record),
            loan,
        }
    }

    fn sound(random: &mut Random, side: Side, record: Record) -> Cabinet {
        Cabinet::of(side, record, sound_images(random, &record))
    }

    fn role(&self, stripe: u64, disk: u64) -> Role {
        match self.layout.owner(stripe, disk) {
            Owner::Blank => Role::Blank,
            Owner::Parity => Role::Parity,
            Owner::Data(_) => Role::Data,
        }
    }

    fn flip(&mut self, stripe: u64, disk: u64, (byte, value): Bit) {
        let start = place(&self.record, stripe, disk).start;
        self.loan.images.bytes_mut()[start + byte] ^= value;
    }

    fn exchange(&mut self, stripe: u64, a: u64, b: u64) {
        let images = self.loan.images.bytes_mut();
        for (a, b) in place(&self.record, stripe, a).zip(place(&self.record, stripe, b)) {
            images.swap(a, b);
        }
    }

    /// No byte of the stripes after this one may be touched, until `open`. Every place is a page.
    fn close_behind(&mut self, stripe: u64) {
        for disk in 0..self.record.disks() {
            let behind = part(&self.record, disk, stripe + 1..self.record.stripes);
            self.loan.images.close(behind);
        }
    }

    fn gives(&mut self, answer: Answer) {
        assert_eq!(self.loan.call(Call::Sweep), answer, "{:?}", self.record);
    }

    fn finds(&mut self, stripe: u64) {
        self.gives(Answer::done(&[1, stripe, stripe + 1]));
    }

    fn finds_none(&mut self) {
        self.gives(Answer::done(&[0, 0, self.record.stripes]));
    }

    /// The first unsound stripe, which the documents make known.
    fn finds_first(&mut self) -> Option<u64> {
        let images = self.loan.images.bytes();
        let first = unsound(images, &self.record, &self.layout).next();
        self.gives(swept(first, self.record.stripes));
        first
    }

    /// The xor of the stripe's places.
    fn sum(&self, stripe: u64) -> Vec<u8> {
        let mut sum = vec![0; self.record.block_len as usize];
        for disk in 0..self.record.disks() {
            let bytes = &self.loan.images.bytes()[place(&self.record, stripe, disk)];
            xor(&mut sum, bytes);
        }
        sum
    }
}

/// Stripe and disk of each.
fn places(record: &Record) -> impl Iterator<Item = (u64, u64)> {
    let (stripes, disks) = (record.stripes, record.disks());
    (0..stripes).flat_map(move |stripe| (0..disks).map(move |disk| (stripe, disk)))
}

/// On the heap, where bits are flipped faster than between protected pages.
fn sound_array(random: &mut Random, record: Record) -> Array {
    Array(Bytes {
        record: record.bytes().to_vec(),
        images: sound_images(random, &record),
        block: vec![0; record.block_len as usize],
    })
}

// ---- one stripe

/// For each shape the lengths of its blocks: arrays before a growth; with whole groups and a tail; with no whole group.
const SHAPES: &[(Shape, &[u64])] = &[
    ((3, 0, 1), &LENGTHS),
    ((3, 0, 7), &LENGTHS),
    ((16, 0, 5), &LENGTHS),
    ((3, 1, 13), &LENGTHS),
    ((3, 2, 17), &LENGTHS),
    ((4, 1, 23), &LENGTHS),
    ((5, 3, 41), &LENGTHS),
    ((3, 16, 59), &LENGTHS),
    ((16, 16, 513), &[1]),
    ((3, 2, 14), &LENGTHS),
    ((16, 1, 20), &LENGTHS),
    ((16, 16, 33), &LENGTHS),
];

/// Every place of an array has one bit off in turn; how many there were of each role.
fn one_bit_off(random: &mut Random, record: Record) -> [u64; 3] {
    let side = *random.pick(&[Side::Start, Side::End]);
    let mut cabinet = Cabinet::sound(random, side, record);
    let images = cabinet.loan.images.bytes().to_vec();
    let mut roles = [0; 3];
    cabinet.finds_none();
    for (stripe, disk) in places(&record) {
        let bit = any_bit(random, record.block_len);
        cabinet.flip(stripe, disk, bit);
        cabinet.finds(stripe);
        cabinet.flip(stripe, disk, bit);
        roles[cabinet.role(stripe, disk) as usize] += 1;
    }
    cabinet.finds_none();
    assert!(cabinet.loan.images.bytes() == images);
    assert_eq!(cabinet.loan.record.bytes(), record.bytes());
    roles
}

#[test]
fn one_bit_off_in_every_place() {
    let seed = Random::seed("one_bit_off_in_every_place");
    on_fault_tell(seed);
    let mut random = Random::seeded(seed);
    let mut all = [0; 3];
    for &(shape, lengths) in SHAPES {
        for moves in counts(shape) {
            for &block_len in lengths {
                let record = record(shape, moves, block_len);
                let roles = one_bit_off(&mut random, record);
                // a place has a block, one of each stripe the parity, and all others are blank
                let (blocks, parities) = (record.capacity(), record.stripes);
                let blanks = record.stripes * record.disks() - blocks - parities;
                assert_eq!(roles, [blanks, parities, blocks], "{record:?}");
                all = [0, 1, 2].map(|role| all[role] + roles[role]);
            }
        }
    }
    println!("blanks, parities and blocks with a bit off: {all:?}");
    assert_eq!(all, [224_830, 74_580, 491_720]);
}

/// Each byte of a block, for every short length, and every 13th of the longest ones, on each disk of stripe 1. Before a growth; with no
/// move of the zone made, and with one; with more disks than are summed at once, in a growth and after it.
#[test]
fn one_bit_off_in_every_byte() {
    let mut random = Random::new("one_bit_off_in_every_byte");
    let shapes = [
        ((3, 0, 2), 0),
        ((4, 1, 20), 0),
        ((4, 1, 20), 1),
        ((3, 16, 57), 1),
        ((16, 16, 2), 0),
    ];
    for block_len in (1..=300).chain(4095..=4096) {
        let step = if block_len <= 300 { 1 } else { 13 };
        for (shape, moves) in shapes {
            let record = record(shape, moves, block_len);
            let mut array = sound_array(&mut random, record);
            assert_eq!(array.sweep(), Answer::done(&[0, 0, record.stripes]));
            for disk in 0..record.disks() {
                for at in place(&record, 1, disk).step_by(step) {
                    let (_, bit) = any_bit(&mut random, block_len);
                    array.0.images[at] ^= bit;
                    let found = Answer::done(&[1, 1, 2]);
                    assert_eq!(array.sweep(), found, "byte {at} of {record:?}");
                    array.0.images[at] ^= bit;
                }
            }
        }
    }
}

// ---- more than one

/// Flips any bit of the stripe; where it was.
fn flip_any(random: &mut Random, cabinet: &mut Cabinet, stripe: u64) -> (u64, Bit) {
    let Record { block_len, .. } = cabinet.record;
    let disk = random.below(cabinet.record.disks());
    let bit = any_bit(random, block_len);
    cabinet.flip(stripe, disk, bit);
    (disk, bit)
}

/// "the stripe is the head of the list of all unsound stripes": of every two, and of all from one on.
#[test]
fn the_lowest_of_several() {
    let mut random = Random::new("the_lowest_of_several");
    let shape = (3, 2, 17);
    for moves in counts(shape) {
        let record = record(shape, moves, 5);
        let mut cabinet = Cabinet::sound(&mut random, Side::End, record);
        for high in 0..17 {
            let (on_high, high_bit) = flip_any(&mut random, &mut cabinet, high);
            cabinet.finds(high);
            for low in 0..high {
                let (on_low, low_bit) = flip_any(&mut random, &mut cabinet, low);
                cabinet.finds(low);
                cabinet.flip(low, on_low, low_bit);
            }
            cabinet.flip(high, on_high, high_bit);
        }
        cabinet.finds_none();
        for stripe in (0..17).rev() {
            flip_any(&mut random, &mut cabinet, stripe);
            cabinet.finds(stripe);
        }
    }
}

/// The same bit is off in two places of a stripe, so that the xor is zero: it is found if one of them is a blank. If both have a block
/// or the parity the stripe is sound, by the definition, and nothing is found. The same of two places that are exchanged, where they
/// differ.
#[test]
fn errors_that_cancel() {
    let mut random = Random::new("errors_that_cancel");
    let mut pairs: BTreeMap<[Role; 2], u64> = BTreeMap::new();
    for shape in [(3, 2, 17), (4, 1, 23), (5, 3, 41), (3, 16, 59)] {
        for moves in counts(shape) {
            let block_len = *random.pick(&LENGTHS[1..14]);
            let record = record(shape, moves, block_len);
            let mut cabinet = Cabinet::sound(&mut random, Side::Start, record);
            for (stripe, a) in places(&record) {
                for b in 0..a {
                    let bit = any_bit(&mut random, block_len);
                    let roles = two_off(&mut cabinet, stripe, [a, b], bit);
                    *pairs.entry(roles).or_default() += 1;
                }
            }
        }
    }
    println!("{pairs:?}");
    use Role::*;
    let kinds = [
        [Blank, Blank],
        [Blank, Parity],
        [Blank, Data],
        [Parity, Data],
        [Data, Data],
    ];
    assert!(pairs.keys().eq(&kinds), "all kinds of pairs: {pairs:?}");
}

/// The bit off on two disks, then their places exchanged; the roles of these.
fn two_off(cabinet: &mut Cabinet, stripe: u64, disks: [u64; 2], bit: Bit) -> [Role; 2] {
    let mut roles = disks.map(|disk| cabinet.role(stripe, disk));
    roles.sort_unstable();
    let [a, b] = disks;
    let flip = |cabinet: &mut Cabinet| disks.map(|disk| cabinet.flip(stripe, disk, bit));
    flip(cabinet);
    match roles {
        [Role::Blank, _] => cabinet.finds(stripe),
        _ => cabinet.finds_none(),
    }
    flip(cabinet);
    cabinet.exchange(stripe, a, b);
    match roles {
        [Role::Blank, Role::Parity | Role::Data] => cabinet.finds(stripe),
        _ => cabinet.finds_none(),
    }
    cabinet.exchange(stripe, a, b);
    roles
}

// ---- "The images may come from anywhere."

/// A good record of a whole array, before, in or after a growth, or right at the end of a zone.
fn random_record(random: &mut Random) -> Record {
    let (n, m) = match random.below(8) {
        0 => (3 + random.below(14), random.below(17)),
        _ => (3 + random.below(4), random.below(5)),
    };
    let groups = random.below(1 + 80 / (n * (n + m)));
    let stripes = (groups * n * (n + m) + any_tail(random, n, m)).max(1);
    let longest = (40_000 / (stripes * (n + m))).clamp(1, 4096);
    let block_len = match random.one_in(4) {
        true => longest.min(*random.pick(&LENGTHS)),
        false => 1 + random.below(longest),
    };
    let begun = record((n, m, stripes), 0, block_len);
    let total = begun.total();
    let moves = match random.below(8) {
        0 => 0,
        1 => total,
        2 | 3 if total > 0 => random.below(total / (n * m) + 1) * n * m,
        _ => random.below(total + 1),
    };
    Record { moves, ..begun }
}

/// Sound ones; any bytes; or sound ones but for the bytes from a stripe on, of all disks or of one, for some bits, or for the same bit
/// on two disks.
fn random_images(random: &mut Random, record: &Record) -> Vec<u8> {
    let Record {
        stripes, block_len, ..
    } = *record;
    let mut images = sound_images(random, record);
    let first = random.below(stripes);
    let [a, b] = [0; 2].map(|_| random.below(record.disks()));
    match random.below(8) {
        0 => {}
        1 => random.fill(&mut images),
        2 => {
            for disk in 0..record.disks() {
                random.fill(&mut images[part(record, disk, first..stripes)]);
            }
        }
        3 => random.fill(&mut images[part(record, a, first..stripes)]),
        4 | 5 => {
            for _ in 0..=random.below(3) {
                let (byte, value) = any_bit(random, record.images_len());
                images[byte] ^= value;
            }
        }
        _ => {
            let (byte, value) = any_bit(random, block_len);
            for disk in [a, b] {
                images[place(record, first, disk).start + byte] ^= value;
            }
        }
    }
    images
}

#[test]
fn any_images() {
    let seed = Random::seed("any_images");
    on_fault_tell(seed);
    let mut random = Random::seeded(seed);
    let [mut none, mut at_once, mut later, mut by_blanks] = [0; 4];
    for _ in 0..20_000 {
        let record = random_record(&mut random);
        let side = *random.pick(&[Side::Start, Side::End]);
        let images = random_images(&mut random, &record);
        let mut cabinet = Cabinet::of(side, record, images);
        match cabinet.finds_first() {
            None => none += 1,
            Some(0) => at_once += 1,
            Some(stripe) => {
                later += 1;
                by_blanks += cabinet.sum(stripe).iter().all(|&byte| byte == 0) as u64;
            }
        }
    }
    println!(
        "none {none}, stripe 0 {at_once}, a later one {later}, by its blanks alone {by_blanks}"
    );
    assert!(none > 2000 && at_once > 2000 && later > 5000 && by_blanks > 300);
}

/// Images that are sound by one record, lent with another one: of another t, of another growth of as many disks, or of blocks of
/// another length.
#[test]
fn a_record_of_another_layout() {
    let mut random = Random::new("a_record_of_another_layout");
    let mut records = Vec::new();
    for shape in [(3, 2, 21), (4, 1, 21), (5, 0, 21)] {
        let counts = counts(shape).into_iter();
        records.extend(counts.map(|moves| record(shape, moves, 24)));
    }
    records.extend([record((3, 2, 42), 30, 12), record((4, 1, 63), 7, 8)]);
    let [mut none, mut found] = [0; 2];
    for made in &records {
        let images = sound_images(&mut random, made);
        for lent in &records {
            let mut cabinet = Cabinet::of(Side::End, *lent, images.clone());
            match cabinet.finds_first() {
                None => none += 1,
                Some(_) => found += 1,
            }
        }
    }
    println!("{none} sound by the record lent too, {found} not");
    assert!(none > 100 && found > 500);
}

/// n = 3, m = 2, T = 17, by hand. Images with no move made, and a record with t of them: found is the lowest stripe of which one was to
/// be made, of the zone begun, as what was to leave its place still stands there; a finished zone has no blanks. Images with t moves
/// made, and a record with none: found is the lowest stripe that has something on a new disk, which is stripe 0 once zone 0 has new
/// blocks.
#[test]
fn a_newer_and_an_older_record() {
    let mut random = Random::new("a_newer_and_an_older_record");
    let by_newer = [
        [None, Some(3), Some(2), Some(1), Some(1), Some(1)],
        [None, Some(8), Some(7), Some(6), Some(6), Some(6)],
        [None, Some(13), Some(12), Some(11), Some(11), Some(11)],
    ];
    let by_older = [None, Some(3), Some(2), Some(1), Some(1), Some(1)];
    let at = |t: usize| record((3, 2, 17), t as u64, 16);
    let images = sound_images(&mut random, &at(0));
    for t in 0..=18 {
        let newer = by_newer.as_flattened().get(t).unwrap_or(&None);
        Cabinet::of(Side::Start, at(t), images.clone()).gives(swept(*newer, 17));
        let older = by_older.get(t).unwrap_or(&Some(0));
        let moved = sound_images(&mut random, &at(t));
        Cabinet::of(Side::Start, at(0), moved).gives(swept(*older, 17));
    }
}

// ---- "The sweep stops there"

/// Shapes and t: before a growth; with no move of it made, with a zone begun, finished but for a move and just finished, with the next
/// one begun, with all moves made but one, and all; with more disks than are summed at once; with no whole group.
const STOPPED: &[(Shape, u64)] = &[
    ((3, 0, 9), 0),
    ((3, 2, 17), 0),
    ((3, 2, 17), 1),
    ((3, 2, 17), 5),
    ((3, 2, 17), 6),
    ((3, 2, 17), 7),
    ((3, 2, 17), 17),
    ((3, 2, 17), 18),
    ((4, 1, 23), 6),
    ((5, 3, 41), 22),
    ((3, 16, 59), 0),
    ((3, 16, 59), 50),
    ((3, 16, 59), 144),
    ((16, 16, 6), 0),
];

/// A bit is off on these disks of the stripe, and all pages after it are closed.
fn finds_before_closed(cabinet: &mut Cabinet, stripe: u64, disks: &[u64], bit: Bit) {
    for &disk in disks {
        cabinet.flip(stripe, disk, bit);
    }
    cabinet.close_behind(stripe);
    cabinet.finds(stripe);
    cabinet.loan.images.open();
    for &disk in disks {
        cabinet.flip(stripe, disk, bit);
    }
}

/// Every stripe in turn is unsound, by each of its places, and by each of its blanks alone: the same bit is off in the parity.
#[test]
fn nothing_behind_it_is_read() {
    let seed = Random::seed("nothing_behind_it_is_read");
    on_fault_tell(seed);
    let mut random = Random::seeded(seed);
    let mut by_blank = 0;
    for &(shape, moves) in STOPPED {
        let record = record(shape, moves, 4096);
        let mut cabinet = Cabinet::sound(&mut random, Side::Start, record);
        for (stripe, disk) in places(&record) {
            let bit = any_bit(&mut random, 4096);
            finds_before_closed(&mut cabinet, stripe, &[disk], bit);
            if cabinet.role(stripe, disk) == Role::Blank {
                let parity = cabinet.layout.parity(stripe);
                finds_before_closed(&mut cabinet, stripe, &[disk, parity], bit);
                by_blank += 1;
            }
        }
        cabinet.finds_none();
    }
    // all blanks of the shapes above, in their order
    let blanks = [0, 34, 34, 34, 24, 24, 14, 0, 18, 99, 944, 640, 0, 0];
    assert_eq!(by_blank, blanks.iter().sum::<u64>());
}

/// Those pages end the run of a sweep that goes on to them, as it has to where the stripe before is sound.
#[test]
fn what_is_behind_a_sound_stripe_is_read() {
    const STRIPE: &str = "SWEEP_BEHIND_A_STRIPE";
    let shapes = [((3, 0, 9), 0), ((3, 2, 17), 7), ((3, 16, 59), 50)];
    if let Ok(text) = std::env::var(STRIPE) {
        let (index, stripe) = text.split_once(' ').unwrap();
        let (shape, moves) = shapes[index.parse::<usize>().unwrap()];
        let record = record(shape, moves, 4096);
        let mut cabinet = Cabinet::sound(&mut Random::seeded(0), Side::Start, record);
        on_fault_tell(0);
        cabinet.close_behind(stripe.parse().unwrap());
        cabinet.finds_none();
        return;
    }
    let again = |index: usize, stripe: u64| {
        let value = format!("{index} {stripe}");
        run_again("what_is_behind_a_sound_stripe_is_read", STRIPE, &value)
    };
    for (index, ((_, _, stripes), _)) in shapes.into_iter().enumerate() {
        for stripe in [0, stripes / 2, stripes - 2] {
            let ended = again(index, stripe);
            assert_eq!(ended.status.code(), Some(1), "ended by the fault");
            let said = String::from_utf8_lossy(&ended.stderr);
            let fault = "a byte outside of what was lent was touched";
            assert!(said.contains(fault), "{said}");
        }
        let passed = again(index, stripes - 1);
        assert_eq!(passed.status.code(), Some(0), "no page is closed");
    }
}

/// Runs a test of this file in a process of its own, with a variable set.
fn run_again(test: &str, name: &str, value: &str) -> Output {
    Command::new(std::env::current_exe().unwrap())
        .args(["--exact", test])
        .env(name, value)
        .output()
        .unwrap()
}

// ---- arrays that the library has made

/// Writes the blocks from this one on; a sweep finds nothing before that and after it. How many there are.
fn write_new(random: &mut Random, array: &mut Array, first: u64) -> u64 {
    let record = array.record();
    let none = Answer::done(&[0, 0, record.stripes]);
    assert_eq!(array.sweep(), none, "{record:?}");
    for block in first..record.capacity() {
        array.write(block, &random.bytes(record.block_len as usize));
    }
    assert_eq!(array.sweep(), none, "{record:?}");
    record.capacity()
}

/// After every move, and with every block written as it comes.
#[test]
fn nothing_is_found_in_a_growth() {
    let mut random = Random::new("nothing_is_found_in_a_growth");
    for (n, m, stripes) in [(3, 1, 13), (3, 2, 17), (4, 1, 23), (5, 3, 41), (3, 2, 14)] {
        let mut array = Array::format(n, *random.pick(&LENGTHS), stripes);
        let mut blocks = write_new(&mut random, &mut array, 0);
        assert_eq!(array.grow(m), Answer::done(&[]));
        blocks = write_new(&mut random, &mut array, blocks);
        while !array.record().is_grown() {
            assert_eq!(array.advance(1), Answer::done(&[1]));
            blocks = write_new(&mut random, &mut array, blocks);
        }
        assert_eq!(blocks, stripes * (n + m - 1));
    }
}

/// A bit is off on a disk, whatever stands there, and found. The disk is reported out and rebuilt, and meanwhile a sweep is refused;
/// then nothing is off.
#[test]
fn a_rebuild_of_the_disk_that_was_wrong() {
    let mut random = Random::new("a_rebuild_of_the_disk_that_was_wrong");
    for (shape, moves) in [((3, 2, 17), 8), ((4, 1, 23), 16), ((3, 0, 5), 0)] {
        let record = record(shape, moves, 9);
        let mut array = sound_array(&mut random, record);
        let images = array.0.images.clone();
        for (stripe, disk) in places(&record) {
            let (byte, value) = any_bit(&mut random, 9);
            array.0.images[place(&record, stripe, disk).start + byte] ^= value;
            assert_eq!(array.sweep(), Answer::done(&[1, stripe, stripe + 1]));
            assert_eq!(array.out(disk), Answer::done(&[]));
            assert_eq!(array.sweep(), Answer::refused(3));
            assert_eq!(array.begin(disk), Answer::done(&[]));
            for k in [record.stripes - 1, 1] {
                assert_eq!(array.sweep(), Answer::refused(3));
                assert_eq!(array.proceed(k), Answer::done(&[k]));
            }
            assert_eq!(array.record().health, Health::Whole);
            assert_eq!(array.sweep(), Answer::done(&[0, 0, record.stripes]));
            assert!(array.0.images == images);
        }
    }
}
