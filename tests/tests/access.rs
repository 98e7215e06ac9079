//! Writes of every short length and of the longest ones: with all disks in, and with the disk of the data, of the parity or of
//! neither out, or being rebuilt, the block's stripe done or not; to old blocks and to new ones. After each of them the answer, the
//! record, the data and every byte of the images are those of a model that goes by the bytes, in memory that ends the run when a byte
//! outside of what was lent is touched.

use std::sync::OnceLock;
use yuzkamide_tests::bytewise::Bytewise;
use yuzkamide_tests::images;
use yuzkamide_tests::layout::Layout;
use yuzkamide_tests::memory::{on_fault_tell, Guarded, Memory, Side};
use yuzkamide_tests::out::{self, Disk, Out};
use yuzkamide_tests::pbm::{Bytes, Call, Loan};
use yuzkamide_tests::random::Random;
use yuzkamide_tests::record::Record;

/// n, m, T and t.
type Shape = (u64, u64, u64, u64);

/// Before a growth, with no move of it made, in its middle (zone 0 is finished, zone 1 is begun) and at its end, with a tail of one
/// stripe; and one that grow itself has ended.
const SHAPES: [Shape; 6] = [
    (3, 0, 4, 0),
    (5, 0, 41, 0),
    (5, 3, 41, 0),
    (5, 3, 41, 22),
    (5, 3, 41, 75),
    (16, 16, 2, 0),
];

/// In the middle of the growth that has the largest group. Not with every length: it has 8,207 blocks.
const WIDE: Shape = (16, 16, 513, 300);
const WIDE_LENGTHS: [u64; 2] = [16, 65];

/// How many writes there were to old blocks and to new ones, in the order of `out::ALL`.
type Tally = [[u64; 2]; out::ALL.len()];

/// An array as the library and as the model have it.
struct Array<'a> {
    loan: Loan<Guarded>,
    wanted: Bytes,
    model: Bytewise,
    /// With all disks in.
    record: Record,
    layout: Layout,
    random: &'a mut Random,
}

impl Array<'_> {
    /// Zeroes are an array after any number of moves, of blocks that are zero.
    fn zero(random: &mut Random, side: Side, record: Record) -> Array<'_> {
        let wanted = Bytes {
            record: record.bytes().to_vec(),
            images: vec![0; record.images_len() as usize],
            block: vec![0; record.block_len as usize],
        };
        let mut loan = Loan::guarded(side);
        loan.lend(&wanted);
        Array {
            loan,
            wanted,
            model: Bytewise::default(),
            record,
            layout: Layout::of(&record),
            random,
        }
    }

    /// Makes a call that is accepted.
    fn call(&mut self, call: Call) {
        let Array { loan, wanted, .. } = self;
        let lent = Record::of(wanted.record[..].try_into().unwrap());
        let what = |part| format!("{part} of {call:?} on {lent:?}");
        let answer = self.model.accept(call, wanted);
        assert_eq!(loan.call(call), answer, "{}", what("the answer"));
        let record = loan.record.bytes();
        assert_eq!(record, wanted.record, "{}", what("the record"));
        let is_block = loan.block.bytes() == wanted.block;
        assert!(is_block, "{}", what("the data"));
        let are_images = loan.images.bytes() == wanted.images;
        assert!(are_images, "{}", what("the images"));
    }

    fn write(&mut self, block: u64) {
        self.random.fill(&mut self.wanted.block);
        self.loan.block.hold(&self.wanted.block);
        self.call(Call::Write { block });
    }

    /// From this stripe on the disk holds any bytes.
    fn scribble(&mut self, disk: u64, first: u64) {
        let range = images::part(&self.record, disk, first..self.record.stripes);
        let bytes = &mut self.wanted.images[range.clone()];
        self.random.fill(bytes);
        self.loan.images.bytes_mut()[range].copy_from_slice(bytes);
    }

    fn disk(&mut self, disk: Disk, block: u64) -> u64 {
        let (stripe, data) = self.layout.place(block);
        let parity = self.layout.parity(stripe);
        let others = out::others(self.record.disks(), data, parity);
        match disk {
            Disk::Data => data,
            Disk::Parity => parity,
            Disk::Other => *self.random.pick(&others),
        }
    }

    /// How many stripes of a rebuild are done for a write to this block, if it is begun: at the bounds, or any such number.
    fn done(&mut self, out: Out, block: u64) -> Option<u64> {
        let (stripe, _) = self.layout.place(block);
        let (least, most) = match out {
            Out::None | Out::Out(_) => return None,
            Out::Done(_) => (stripe + 1, self.record.stripes - 1),
            Out::Undone(_) => (0, stripe),
        };
        let any = least + self.random.below(most - least + 1);
        Some(*self.random.pick(&[least, most, any]))
    }

    /// Loses the disk and rebuilds so much of it; then it is written to, and the rest is rebuilt.
    fn write_without(&mut self, out: Out, block: u64) {
        let Some(disk) = out.disk() else {
            return self.write(block);
        };
        let (disk, done) = (self.disk(disk, block), self.done(out, block));
        self.call(Call::Out { disk });
        self.scribble(disk, 0);
        if let Some(done) = done {
            self.call(Call::Begin { disk });
            self.call(Call::Continue { k: done });
            self.scribble(disk, done);
        }
        self.write(block);
        if done.is_none() {
            self.call(Call::Begin { disk });
        }
        self.call(Call::Continue { k: u64::MAX });
    }

    /// The first and the last block and any one, of the old ones and, where there are such, of the new ones. A rebuild that has done
    /// the last stripe is over: then they are of the others.
    fn some_blocks(&mut self, out: Out) -> Vec<u64> {
        let stripes = match out {
            Out::Done(_) => self.record.stripes - 1,
            _ => self.record.stripes,
        };
        let (old, all) = (self.record.old_capacity(), self.record.capacity());
        let mut some = Vec::new();
        for blocks in [0..old, old..all] {
            let is_there = |block: &u64| self.layout.place(*block).0 < stripes;
            let blocks: Vec<u64> = blocks.filter(is_there).collect();
            if let (Some(&first), Some(&last)) = (blocks.first(), blocks.last()) {
                some.extend([first, *self.random.pick(&blocks), last]);
            }
        }
        some
    }
}

/// Writes each block of an array, and then some of them with each kind of disk out or being rebuilt.
fn write_all(random: &mut Random, side: Side, shape: Shape, block_len: u64, tally: &mut Tally) {
    let (n, m, stripes, moves) = shape;
    let home = Record::new(n, block_len, stripes);
    let mut array = Array::zero(random, side, Record { m, moves, ..home });
    let mut write = |array: &mut Array, out: Out, block: u64| {
        array.write_without(out, block);
        let is_new = block >= array.record.old_capacity();
        tally[out.kind()][is_new as usize] += 1;
    };
    for block in 0..array.record.capacity() {
        write(&mut array, Out::None, block);
    }
    for out in out::ALL {
        for block in array.some_blocks(out) {
            write(&mut array, out, block);
        }
    }
    let left = array.loan.images.bytes();
    assert!(images::are_sound(left, &array.record, &array.layout));
}

/// One for both tests, which make the same writes.
fn seed() -> u64 {
    static SEED: OnceLock<u64> = OnceLock::new();
    *SEED.get_or_init(|| Random::seed("writes"))
}

fn writes(side: Side) {
    let seed = seed();
    on_fault_tell(seed);
    let mut random = Random::seeded(seed);
    let mut tally = Tally::default();
    for block_len in (1..=70).chain(4081..=4096) {
        for shape in SHAPES {
            write_all(&mut random, side, shape, block_len, &mut tally);
        }
    }
    for block_len in WIDE_LENGTHS {
        write_all(&mut random, side, WIDE, block_len, &mut tally);
    }
    println!("writes to old and to new blocks:");
    for (out, counts) in out::ALL.iter().zip(tally) {
        println!("{out:?}: {counts:?}");
    }
    // 694 old and 179 new blocks in 6 arrays, 3 of which have new ones, for 86 lengths; 7,695 and 512 in the wide one, for 2
    let some = [86 * 18 + 2 * 3, 86 * 9 + 2 * 3];
    let all = [86 * 694 + 2 * 7695, 86 * 179 + 2 * 512];
    let whole = [all[0] + some[0], all[1] + some[1]];
    assert_eq!(tally[0], whole);
    assert_eq!(tally[1..], [some; 9]);
}

#[test]
fn against_the_page_before() {
    writes(Side::Start);
}

#[test]
fn against_the_page_behind() {
    writes(Side::End);
}
