//! The memory of a disk that is out may be gone, and so may that of the stripes not yet done of a disk that is being rebuilt: no call
//! but format and continue reads or writes a byte of it, not even to refuse. Here its pages are closed, so that a call that touches
//! one ends the run; every call answers as the flat list does. Begin touches no image, and continue just its stripes of its disk, beside
//! which it reads other disks alone: all else is closed then. And they make the disk right, with other bytes in it before.

use std::ops::Range;
use yuzkamide_tests::flat::Flat;
use yuzkamide_tests::images;
use yuzkamide_tests::layout::Owner;
use yuzkamide_tests::memory::{on_fault_tell, Guarded, Memory, Side};
use yuzkamide_tests::pbm::{Answer, Bytes, Call, Loan};
use yuzkamide_tests::random::Random;
use yuzkamide_tests::record::{Health, Record, RECORD_LEN};
use yuzkamide_tests::table::Lent;

/// n, m, B and T: arrays whose disks are whole pages, without a tail, with one, and of no whole group.
const SHAPES: &[(u64, u64, u64, u64)] = &[
    (3, 0, 4096, 1),
    (3, 0, 256, 16),
    (5, 0, 4096, 7),
    (16, 0, 64, 64),
    (3, 1, 1024, 12),
    (3, 2, 4096, 15),
    (4, 1, 1024, 20),
    (4, 4, 128, 32),
    (5, 3, 512, 40),
    (3, 13, 256, 48),
    (16, 16, 8, 512),
    (3, 1, 1024, 16),
    (3, 2, 4096, 16),
    (4, 2, 512, 32),
    (5, 3, 256, 48),
    (3, 2, 4096, 14),
    (4, 1, 4096, 19),
    (3, 16, 4096, 1),
    (16, 16, 128, 32),
];

struct Array {
    loan: Loan<Guarded>,
    flat: Flat,
    random: Random,
    /// How many calls were made while pages were closed.
    calls: u64,
}

impl Array {
    /// An array after so many moves, with any blocks in it.
    fn new(seed: u64, shape: (u64, u64, u64, u64), moves: u64) -> Array {
        let (n, m, block_len, stripes) = shape;
        let mut array = Array {
            loan: Loan::guarded(Side::Start),
            flat: Flat::format(n, block_len, stripes),
            random: Random::seeded(seed),
            calls: 0,
        };
        if m > 0 {
            array.step(Call::Grow { m }, &mut []);
            array.step(Call::Advance { k: moves }, &mut []);
        }
        for block in 0..array.flat.capacity() {
            let mut data = array.random.bytes(block_len as usize);
            array.step(Call::Write { block }, &mut data);
        }
        array.loan.lend(&Bytes {
            record: array.flat.numbers.bytes().to_vec(),
            images: images::of(&array.flat),
            block: vec![0; block_len as usize],
        });
        array
    }

    /// What the flat list answers to a call that is lent what it asks for.
    fn step(&mut self, call: Call, block: &mut [u8]) -> Answer {
        let Record {
            n,
            stripes,
            block_len,
            ..
        } = self.flat.numbers;
        let images_len = match call {
            Call::Grow { m } => (n + m) * stripes * block_len,
            _ => self.flat.numbers.images_len(),
        };
        let lent = Lent {
            record_len: RECORD_LEN,
            good: true,
            images_len: images_len as usize,
            block_len: self.flat.numbers.block_len as usize,
        };
        self.flat.step(call, &lent, block)
    }

    /// Makes the call and holds its answer, the block and the record to the flat list's.
    fn call(&mut self, call: Call) -> Answer {
        let mut block = self.loan.block.bytes().to_vec();
        let wanted = self.step(call, &mut block);
        let numbers = &self.flat.numbers;
        assert_eq!(self.loan.call(call), wanted, "{call:?} on {numbers:?}");
        assert_eq!(self.loan.block.bytes(), block, "{call:?} on {numbers:?}");
        let record = self.flat.numbers.bytes();
        assert_eq!(self.loan.record.bytes(), record, "{call:?}");
        self.calls += 1;
        wanted
    }

    fn accepted(&mut self, call: Call) {
        assert_eq!(self.call(call).number, 0, "{call:?}");
    }

    fn refused(&mut self, number: u8, call: Call) {
        assert_eq!(self.call(call), Answer::refused(number), "{call:?}");
    }

    /// The disk goes out, and its pages with it.
    fn lose(&mut self, disk: u64) {
        self.spoil(disk, 0);
        self.accepted(Call::Out { disk });
    }

    /// From this stripe on the disk's pages are closed, with any bytes in them.
    fn spoil(&mut self, disk: u64, first: u64) {
        let numbers = &self.flat.numbers;
        let range = images::part(numbers, disk, first..numbers.stripes);
        self.random
            .fill(&mut self.loan.images.bytes_mut()[range.clone()]);
        self.loan.images.close(range);
    }

    /// All other pages than these are closed, until `open`.
    fn close_others(&mut self, range: Range<usize>) {
        let len = self.loan.images.bytes().len();
        self.loan.images.close(0..range.start);
        self.loan.images.close(range.end..len);
    }

    fn read_all(&mut self) {
        for block in 0..self.flat.capacity() {
            self.loan.block.bytes_mut().fill(0x5a);
            self.accepted(Call::Read { block });
        }
    }

    fn write_all(&mut self) {
        for block in 0..self.flat.capacity() {
            self.random.fill(self.loan.block.bytes_mut());
            self.accepted(Call::Write { block });
        }
    }

    fn ask_all(&mut self) {
        let numbers = self.flat.numbers;
        self.accepted(Call::Status);
        for block in 0..self.flat.capacity() {
            self.accepted(Call::Locate { block });
        }
        for stripe in 0..numbers.stripes {
            for disk in 0..numbers.disks() {
                self.accepted(Call::Owner { stripe, disk });
            }
        }
    }

    /// Calls that an array with this disk out or being rebuilt refuses.
    fn refuse_all(&mut self, disk: u64) {
        let Record {
            n,
            stripes,
            block_len,
            ..
        } = self.flat.numbers;
        let disks = self.flat.numbers.disks();
        let capacity = self.flat.capacity();
        self.refused(3, Call::Grow { m: 1 });
        self.refused(3, Call::Grow { m: 0 });
        self.refused(3, Call::Advance { k: 1 });
        self.refused(3, Call::Advance { k: u64::MAX });
        self.refused(3, Call::Sweep);
        self.refused(8, Call::Read { block: capacity });
        self.refused(8, Call::Write { block: capacity });
        self.refused(10, Call::Out { disk: disks });
        for other in (0..=disks).filter(|&other| other != disk) {
            self.refused(10, Call::Begin { disk: other });
        }
        match self.flat.numbers.health {
            Health::Rebuilding { .. } => self.refused(10, Call::Begin { disk }),
            _ => {
                self.refused(10, Call::Out { disk });
                self.refused(10, Call::Continue { k: 1 });
            }
        }
        let format = |n, block_len, stripes| Call::Format {
            n,
            block_len,
            stripes,
        };
        self.refused(6, format(2, block_len, stripes));
        self.refused(6, format(n, 0, stripes));
        self.refused(6, format(n, block_len, 1_048_577));
        self.refused(7, format(n, block_len, stripes + 1));
    }

    /// A block that is a byte short is refused for its length.
    fn refuse_short_block(&mut self) {
        let right = self.loan.block.bytes().to_vec();
        self.loan.block.hold(&right[1..]);
        for call in [Call::Read { block: 0 }, Call::Write { block: 0 }] {
            assert_eq!(self.loan.call(call), Answer::refused(9), "{call:?}");
            assert_eq!(self.loan.block.bytes(), &right[1..]);
            self.calls += 1;
        }
        self.loan.block.hold(&right);
    }

    /// By a record of shorter blocks the images are too long.
    fn refuse_length(&mut self, disk: u64) {
        let right = self.flat.numbers;
        let shorter = Record {
            block_len: right.block_len - 1,
            ..right
        };
        self.loan.record.hold(&shorter.bytes());
        for call in [
            Call::Read { block: 0 },
            Call::Write { block: 0 },
            Call::Begin { disk },
            Call::Continue { k: 1 },
        ] {
            assert_eq!(self.loan.call(call), Answer::refused(7), "{call:?}");
            self.calls += 1;
        }
        self.loan.record.hold(&right.bytes());
    }

    /// With a second disk out all is lost, and refused; then it is as if that had not been.
    fn lose_another(&mut self, disk: u64) {
        let before = self.flat.numbers;
        self.accepted(Call::Out { disk });
        for call in [
            Call::Read { block: 0 },
            Call::Write { block: 0 },
            Call::Grow { m: 1 },
            Call::Advance { k: 1 },
            Call::Out { disk: 0 },
            Call::Begin { disk },
            Call::Continue { k: 1 },
            Call::Sweep,
        ] {
            self.refused(2, call);
        }
        self.accepted(Call::Status);
        self.accepted(Call::Locate { block: 0 });
        self.accepted(Call::Owner { stripe: 0, disk });
        self.flat.numbers = before;
        self.loan.record.hold(&before.bytes());
    }

    /// All that is not closed: every disk but this one, and of this one the stripes done, hold what the flat list stands for.
    fn look(&self, out: u64) {
        let numbers = &self.flat.numbers;
        let [_, _, done] = numbers.health.numbers();
        let wanted = images::of(&self.flat);
        for disk in 0..numbers.disks() {
            let stripes = if disk == out { done } else { numbers.stripes };
            let range = images::part(numbers, disk, 0..stripes);
            let left = &self.loan.images.bytes()[range.clone()];
            assert!(left == &wanted[range], "disk {disk} of {numbers:?}");
        }
    }

    /// No byte of the images is looked at.
    fn begin(&mut self, disk: u64) {
        self.close_others(0..0);
        self.accepted(Call::Begin { disk });
        self.loan.images.open();
    }

    /// Continues by k stripes, as many as are left or fewer: their places on the disk may be written, those of other disks read, and
    /// nothing else may be touched.
    fn proceed(&mut self, disk: u64, k: u64) {
        let numbers = self.flat.numbers;
        let [_, _, done] = numbers.health.numbers();
        let (own, len) = (images::disk(&numbers, disk), numbers.images_len() as usize);
        let next = images::part(&numbers, disk, done..done + k);
        self.random
            .fill(&mut self.loan.images.bytes_mut()[next.clone()]);
        self.loan.images.keep(0..own.start);
        self.loan.images.close(own.start..next.start);
        self.loan.images.close(next.end..own.end);
        self.loan.images.keep(own.end..len);
        self.accepted(Call::Continue { k });
        self.loan.images.open();
        self.look(disk);
    }

    /// In the stripes done the disk is in service: a block of it is read there and from no other disk.
    fn read_done(&mut self, disk: u64) {
        let numbers = self.flat.numbers;
        let [_, _, done] = numbers.health.numbers();
        self.close_others(images::part(&numbers, disk, 0..done));
        for stripe in 0..done {
            if let Owner::Data(block) = self.flat.layout.owner(stripe, disk) {
                self.loan.block.bytes_mut().fill(0x5a);
                self.accepted(Call::Read { block });
            }
        }
        self.loan.images.open();
    }

    /// The disk fails again, and all of its pages are closed; then it is as if that had not been.
    fn lose_again(&mut self, disk: u64) {
        let before = self.flat.numbers;
        self.accepted(Call::Out { disk });
        self.loan.images.close(images::disk(&before, disk));
        self.read_all();
        self.loan.images.open();
        self.flat.numbers = before;
        self.loan.record.hold(&before.bytes());
    }
}

/// One array with each of its disks out in turn, and then rebuilt.
fn each_disk_out(seed: u64, shape: (u64, u64, u64, u64), moves: u64) -> u64 {
    let mut array = Array::new(seed, shape, moves);
    let disks = array.flat.numbers.disks();
    for disk in 0..disks {
        array.lose(disk);
        array.ask_all();
        array.read_all();
        array.refuse_all(disk);
        array.refuse_short_block();
        array.refuse_length(disk);
        array.lose_another((disk + 1) % disks);
        array.look(disk);
        array.write_all();
        array.look(disk);
        array.read_all();
        array.begin(disk);
        rebuild_by_pages(&mut array, disk);
        assert!(array.loan.images.bytes() == images::of(&array.flat));
        array.accepted(Call::Sweep);
    }
    array.calls
}

/// By the stripes of one page at a time, and before one of them all calls are made.
fn rebuild_by_pages(array: &mut Array, disk: u64) {
    let Record {
        block_len, stripes, ..
    } = array.flat.numbers;
    let in_page = 4096 / block_len;
    let pages = stripes / in_page;
    let used = array.random.below(pages);
    for page in 0..pages {
        if page == used {
            use_half_rebuilt(array, disk, page * in_page);
        }
        array.proceed(disk, in_page);
    }
}

fn use_half_rebuilt(array: &mut Array, disk: u64, done: u64) {
    array.read_done(disk);
    array.lose_again(disk);
    array.spoil(disk, done);
    array.refuse_all(disk);
    array.refuse_short_block();
    array.refuse_length(disk);
    array.lose_another((disk + 1) % array.flat.numbers.disks());
    array.read_all();
    array.write_all();
    array.look(disk);
    array.read_all();
    array.accepted(Call::Continue { k: 0 });
    array.loan.images.open();
}

#[test]
fn a_disk_that_is_out_is_not_touched() {
    let seed = Random::seed("a_disk_that_is_out_is_not_touched");
    on_fault_tell(seed);
    let mut calls = 0;
    for &shape in SHAPES {
        let (n, m, block_len, stripes) = shape;
        let mut record = Record::new(n, block_len, stripes);
        record.m = m;
        let total = record.total();
        // no move made, a zone finished, all made, and between
        let mut moves = vec![0, 1, n * m, total / 2, total.saturating_sub(1), total];
        moves.retain(|&t| t <= total);
        moves.sort_unstable();
        moves.dedup();
        for t in moves {
            calls += each_disk_out(seed, shape, t);
        }
    }
    println!("{calls} calls");
    assert!(calls > 1_000_000);
}

/// The pages are closed indeed, and kept, in both kinds of memory: a program that reads a byte of the ones, or writes one of the
/// others, ends.
#[test]
fn a_page_that_may_not_be_touched() {
    const TOUCH: &str = "TOUCH_A_PAGE";
    let mut zeros = Guarded::zeros(Side::Start, 4 * 4096);
    zeros.bytes_mut().fill(7);
    let mut held = Guarded::new(Side::Start);
    held.hold(&[7; 4 * 4096]);
    for (kind, mut pages) in [("zeros", zeros), ("held", held)] {
        pages.close(4096..2 * 4096);
        pages.keep(2 * 4096..3 * 4096);
        assert_eq!(pages.shared()[4095], 7);
        if let Ok(touch) = std::env::var(TOUCH) {
            on_fault_tell(0);
            if touch == format!("read {kind}") {
                println!("{}", pages.shared()[4096]);
            }
            if touch == format!("write {kind}") {
                pages.exclusive()[2 * 4096] = 8;
            }
            continue;
        }
        assert_eq!(pages.exclusive()[2 * 4096], 7);
        pages.exclusive()[3 * 4096] = 8;
        for touch in ["read", "write"] {
            let touched = std::process::Command::new(std::env::current_exe().unwrap())
                .args(["--exact", "a_page_that_may_not_be_touched"])
                .env(TOUCH, format!("{touch} {kind}"))
                .output()
                .unwrap();
            assert_eq!(touched.status.code(), Some(1), "ended by the fault");
            let said = String::from_utf8_lossy(&touched.stderr);
            assert!(
                said.contains("a byte outside of what was lent was touched"),
                "{said}"
            );
        }
        pages.open();
        assert_eq!(pages.exclusive()[4096], 7);
        pages.exclusive()[2 * 4096] = 8;
        assert_eq!(pages.bytes()[2 * 4096..][..2], [8, 7]);
    }
}
