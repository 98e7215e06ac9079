//! Request (b) of document 02: "After each finished zone its blanks become blocks." The capacity at every count of moves, as
//! figures; that a new block keeps its place from the move on that it comes with; and that it keeps its bytes through later moves,
//! through writes with a disk out and through rebuilds, in the middle of them too. And the three models, each of which takes the
//! rule in its own way, agree.

use yuzkamide_tests::array::Array;
use yuzkamide_tests::flat::Flat;
use yuzkamide_tests::images;
use yuzkamide_tests::pbm::{Answer, Call};
use yuzkamide_tests::random::Random;
use yuzkamide_tests::record::{tails, RECORD_LEN};
use yuzkamide_tests::table::Lent;

/// A growth, by hand.
struct Growth {
    n: u64,
    m: u64,
    stripes: u64,
    /// The moves of a zone.
    zone: u64,
    /// The capacity with no zone finished, with one, and so on; the last is that of the growth that is over.
    capacities: &'static [u64],
}

const fn growth(n: u64, m: u64, stripes: u64, zone: u64, capacities: &'static [u64]) -> Growth {
    Growth {
        n,
        m,
        stripes,
        zone,
        capacities,
    }
}

/// No whole group, one, and some; without a tail, and with short and long ones.
const GROWTHS: &[Growth] = &[
    growth(3, 1, 1, 3, &[3]),
    growth(3, 1, 11, 3, &[33]),
    growth(3, 1, 12, 3, &[24, 28, 32, 36]),
    growth(3, 1, 13, 3, &[26, 30, 34, 39]),
    growth(3, 1, 24, 3, &[48, 52, 56, 60, 64, 68, 72]),
    growth(3, 2, 14, 6, &[56]),
    growth(3, 2, 15, 6, &[30, 40, 50, 60]),
    growth(3, 2, 17, 6, &[34, 44, 54, 68]),
    growth(3, 2, 29, 6, &[58, 68, 78, 116]),
    growth(3, 2, 30, 6, &[60, 70, 80, 90, 100, 110, 120]),
    growth(
        3,
        2,
        47,
        6,
        &[94, 104, 114, 124, 134, 144, 154, 164, 174, 188],
    ),
    growth(4, 1, 19, 4, &[76]),
    growth(4, 1, 20, 4, &[60, 65, 70, 75, 80]),
    growth(4, 1, 39, 4, &[117, 122, 127, 132, 156]),
    growth(4, 1, 41, 4, &[123, 128, 133, 138, 143, 148, 153, 158, 164]),
    growth(4, 2, 24, 8, &[72, 84, 96, 108, 120]),
    growth(4, 2, 29, 8, &[87, 99, 111, 123, 145]),
    growth(5, 3, 39, 15, &[273]),
    growth(5, 3, 40, 15, &[160, 184, 208, 232, 256, 280]),
    growth(5, 3, 49, 15, &[196, 220, 244, 268, 292, 343]),
    growth(3, 16, 56, 48, &[1008]),
    growth(3, 16, 57, 48, &[114, 418, 722, 1026]),
    growth(3, 16, 60, 48, &[120, 424, 728, 1080]),
    growth(
        16,
        1,
        273,
        16,
        &[
            4095, 4112, 4129, 4146, 4163, 4180, 4197, 4214, 4231, 4248, 4265, 4282, 4299, 4316,
            4333, 4350, 4368,
        ],
    ),
];

impl Growth {
    /// The blocks before it.
    fn old(&self) -> u64 {
        self.stripes * (self.n - 1)
    }

    fn total(&self) -> u64 {
        self.zone * (self.capacities.len() as u64 - 1)
    }

    fn capacity(&self, moves: u64) -> u64 {
        self.capacities[(moves / self.zone) as usize]
    }

    fn status(&self, moves: u64) -> Answer {
        Answer::done(&[self.capacity(moves), moves, self.total(), 0, 0])
    }

    /// Grown, with no move made.
    fn begin(&self, block_len: u64) -> Array {
        let mut array = Array::format(self.n, block_len, self.stripes);
        let before = Answer::done(&[self.old(), 0, 0, 0, 0]);
        assert_eq!(array.call(Call::Status), before);
        assert_eq!(array.grow(self.m), Answer::done(&[]));
        array
    }

    /// The array at every count of moves, from none to all.
    fn at_every_move(&self, block_len: u64, mut look: impl FnMut(&mut Array, u64)) {
        let mut array = self.begin(block_len);
        look(&mut array, 0);
        for moves in 1..=self.total() {
            assert_eq!(array.advance(1), Answer::done(&[1]));
            look(&mut array, moves);
        }
        assert_eq!(array.advance(1), Answer::refused(5));
    }
}

/// All calls go by the capacity: its last block is there, and the one after it is refused.
#[test]
fn the_capacity_after_every_move() {
    for growth in GROWTHS {
        growth.at_every_move(1, |array, moves| {
            assert_eq!(array.call(Call::Status), growth.status(moves));
            let capacity = growth.capacity(moves);
            for (block, number) in [(capacity - 1, 0), (capacity, 8)] {
                for call in [
                    Call::Locate { block },
                    Call::Read { block },
                    Call::Write { block },
                ] {
                    let answer = array.call(call);
                    assert_eq!(answer.number, number, "{call:?} on {:?}", array.record());
                }
            }
        });
    }
}

/// One advance brings the new blocks of all zones that its moves finish: from every count of moves, by every budget.
#[test]
fn one_advance_gives_all_that_it_finishes() {
    for growth in GROWTHS.iter().filter(|growth| growth.total() <= 36) {
        for moves in 0..growth.total() {
            for k in 0..=growth.total() - moves {
                let mut array = growth.begin(1);
                assert_eq!(array.advance(moves), Answer::done(&[moves]));
                assert_eq!(array.call(Call::Status), growth.status(moves));
                assert_eq!(array.advance(k), Answer::done(&[k]));
                assert_eq!(array.call(Call::Status), growth.status(moves + k));
                let new = growth.old()..growth.capacity(moves + k);
                assert!(new.into_iter().all(|block| array.read(block) == [0]));
            }
        }
    }
}

/// "New block T × (n − 1) + k is in stripe k div m, on blank place k mod m counted from the lowest disk", and stays there. The
/// other stripes have their blanks.
#[test]
fn a_new_block_keeps_its_place() {
    for growth in GROWTHS {
        let mut places: Vec<Answer> = Vec::new();
        growth.at_every_move(1, |array, moves| {
            let new = growth.old()..growth.capacity(moves);
            for (k, block) in new.clone().enumerate() {
                let place = array.locate(block);
                assert_eq!(place, *places.get(k).unwrap_or(&place), "block {block}");
                assert_eq!(place.beside[0], k as u64 / growth.m, "block {block}");
            }
            places = new.map(|block| array.locate(block)).collect();
            let numbered = places.len() as u64 / growth.m;
            for stripe in 0..growth.stripes {
                check_stripe(growth, array, stripe, stripe < numbered);
            }
        });
        assert_eq!(places.len() as u64, growth.stripes * growth.m);
    }
}

/// A stripe has its parity, its n − 1 old blocks, and m new blocks, rising with their disks, or m blanks. Locate tells of each block
/// where it stands, with that parity; moved are the old ones on new disks.
fn check_stripe(growth: &Growth, array: &mut Array, stripe: u64, is_numbered: bool) {
    let (mut parities, mut blanks, mut blocks) = (Vec::new(), 0, Vec::new());
    for disk in 0..growth.n + growth.m {
        let answer = array.owner(stripe, disk);
        assert_eq!(answer.number, 0);
        match answer.beside[..2] {
            [0, 0] => blanks += 1,
            [1, 0] => parities.push(disk),
            [2, block] => blocks.push((block, disk)),
            _ => panic!("{answer:?}"),
        }
    }
    assert_eq!(parities.len(), 1);
    for &(block, disk) in &blocks {
        let moved = block < growth.old() && disk >= growth.n;
        let place = Answer::done(&[stripe, disk, parities[0], moved.into()]);
        assert_eq!(array.locate(block), place, "block {block}");
    }
    let (mut old, new): (Vec<u64>, Vec<u64>) = blocks
        .into_iter()
        .map(|(block, _)| block)
        .partition(|&block| block < growth.old());
    old.sort_unstable();
    let first = stripe * (growth.n - 1);
    assert_eq!(old, Vec::from_iter(first..first + growth.n - 1));
    let first = growth.old() + stripe * growth.m;
    let (wanted, left) = match is_numbered {
        true => (Vec::from_iter(first..first + growth.m), 0),
        false => (Vec::new(), growth.m),
    };
    assert_eq!((blanks, new), (left, wanted));
}

/// An array of blocks of 3 bytes, and what each of them was last given.
struct Kept<'a> {
    growth: &'a Growth,
    array: &'a mut Array,
    given: &'a mut Vec<[u8; 3]>,
}

impl Kept<'_> {
    /// The blocks that have just come are zero; they are given other bytes.
    fn take_new(&mut self) {
        for block in self.given.len() as u64..self.array.record().capacity() {
            assert_eq!(self.array.read(block), [0; 3], "block {block}");
            self.given.push([0; 3]);
            self.write(block, 1);
        }
    }

    fn write(&mut self, block: u64, turn: u64) {
        let data = [1 + block as u8 % 255, 1 + (block / 255) as u8, turn as u8];
        self.array.write(block, &data);
        self.given[block as usize] = data;
    }

    fn read_all(&mut self) {
        for (block, data) in self.given.iter().enumerate() {
            let read = self.array.read(block as u64);
            assert_eq!(read, data, "block {block} of {:?}", self.array.record());
        }
    }

    /// New blocks stand where locate says, in the images themselves.
    fn look(&mut self) {
        let record = self.array.record();
        for block in self.growth.old()..self.given.len() as u64 {
            let [stripe, disk, ..] = self.array.locate(block).beside;
            let at = images::place(&record, stripe, disk);
            assert_eq!(self.array.0.images[at], self.given[block as usize]);
        }
    }

    /// With the disk out, and then with half of it rebuilt, all blocks are read and some are written; then it is rebuilt.
    fn lose(&mut self, disk: u64, turn: u64) {
        let record = self.array.record();
        assert_eq!(self.array.out(disk), Answer::done(&[]));
        self.array.0.images[images::disk(&record, disk)].fill(0xee);
        self.write_some(turn);
        let first = record.stripes / 2;
        assert_eq!(self.array.begin(disk), Answer::done(&[]));
        assert_eq!(self.array.proceed(first), Answer::done(&[first]));
        self.write_some(turn + 1);
        let left = record.stripes - first;
        assert_eq!(self.array.proceed(left), Answer::done(&[left]));
        self.read_all();
        self.look();
    }

    fn write_some(&mut self, turn: u64) {
        self.read_all();
        let blocks = self.given.len() as u64;
        for block in (turn % 5..blocks).step_by(5) {
            self.write(block, turn);
        }
        self.read_all();
    }
}

/// Between any two moves, with each disk out in turn.
#[test]
fn a_new_block_keeps_its_bytes() {
    for growth in GROWTHS.iter().filter(|growth| growth.stripes < 50) {
        let mut given = Vec::new();
        growth.at_every_move(3, |array, moves| {
            let mut kept = Kept {
                growth,
                array,
                given: &mut given,
            };
            // a move has been made since all was written
            kept.read_all();
            kept.look();
            kept.take_new();
            for disk in 0..growth.n + growth.m {
                kept.lose(disk, moves * 7 + disk);
            }
        });
    }
}

/// By the formula of the record, by the moves of the replay and by the list that lengthens, which `Flat::step` compares at every
/// call: one move at a time, and some at a time.
#[test]
fn the_models_agree() {
    let mut random = Random::new("the_models_agree");
    for n in 3..=16 {
        for m in 1..=16 {
            let group = n * (n + m);
            let tails = [0].into_iter().chain(tails(n, m));
            for stripes in tails
                .flat_map(|tail| [tail, group + tail])
                .filter(|&t| t > 0)
            {
                let k = 1 + random.below(2 * n * m);
                for k in [1, k] {
                    let grown = stripes * (n + m - 1);
                    assert_eq!(grown_by(n, m, stripes, k), grown, "{n} {m} {stripes} {k}");
                }
            }
        }
    }
}

/// The capacity that the flat list has after its growth by k moves at a time.
fn grown_by(n: u64, m: u64, stripes: u64, k: u64) -> u64 {
    let mut flat = Flat::format(n, 1, stripes);
    let mut step = |call| {
        let lent = Lent {
            record_len: RECORD_LEN,
            good: true,
            images_len: ((n + m) * stripes) as usize,
            block_len: 1,
        };
        flat.step(call, &lent, &mut [])
    };
    assert_eq!(step(Call::Grow { m }), Answer::done(&[]));
    while step(Call::Advance { k }).number == 0 {}
    step(Call::Status).beside[0]
}
