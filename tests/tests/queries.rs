//! Locate, all four numbers of it, and owner at every block and every place, against the moves made one by one; they read the record
//! alone, so the largest arrays need no images.

use yuzkamide_tests::flat::{located, owned};
use yuzkamide_tests::layout::{Layout, Owner};
use yuzkamide_tests::pbm::{Answer, Bytes, Call};
use yuzkamide_tests::random::Random;
use yuzkamide_tests::record::{tails, Record};

/// A record, and the layout that the moves lead to.
struct Growth {
    record: Record,
    layout: Layout,
}

impl Growth {
    fn start(n: u64, m: u64, stripes: u64) -> Growth {
        let mut record = Record::new(n, 1, stripes);
        record.m = m;
        let layout = Layout::of(&record);
        Growth { record, layout }
    }

    fn advance(&mut self, count: u64) {
        self.record.moves += count;
        self.layout.advance(count);
    }

    fn left(&self) -> u64 {
        self.layout.total() - self.record.moves
    }

    fn check(&self) {
        self.check_status();
        self.check_blocks(0..self.layout.capacity());
        self.check_end();
        self.check_places(self.places(0));
        self.check_tail();
        self.check_moved();
    }

    /// All from this stripe on.
    fn places(&self, first: u64) -> impl Iterator<Item = (u64, u64)> {
        let disks = self.record.disks();
        (first..self.record.stripes).flat_map(move |s| (0..disks).map(move |d| (s, d)))
    }

    fn check_status(&self) {
        let (capacity, total) = (self.layout.capacity(), self.layout.total());
        let wanted = Answer::done(&[capacity, self.record.moves, total, 0, 0]);
        let answer = self.loan().call(Call::Status);
        assert_eq!(answer, wanted, "{:?}", self.record);
    }

    /// Blocks at and above the capacity, the last one that comes later too.
    fn check_end(&self) {
        let Record { n, m, stripes, .. } = self.record;
        let (next, grown) = (self.layout.capacity(), stripes * (n + m - 1));
        for block in [next, next.max(grown - 1), grown] {
            let answer = self.loan().call(Call::Locate { block });
            assert_eq!(answer, Answer::refused(8), "{block} {:?}", self.record);
        }
    }

    /// The replay itself: "stripes behind the last one keep old parity and data places, with all m new places blank", and "New
    /// numbers still run over all stripes."
    fn check_tail(&self) {
        let Record { n, m, stripes, .. } = self.record;
        let home = Layout::home(n, stripes);
        for (stripe, disk) in self.places(stripes - self.record.tail()) {
            let new = stripes * (n - 1) + stripe * m + disk.saturating_sub(n);
            let wanted = match disk < n {
                true => home.owner(stripe, disk),
                false if self.left() == 0 => Owner::Data(new),
                false => Owner::Blank,
            };
            let found = self.layout.owner(stripe, disk);
            assert_eq!(found, wanted, "{stripe} {disk} {:?}", self.record);
        }
    }

    /// The replay itself: a block of before the growth has moved if it stands on another disk than then, and a new one never has. Of
    /// each n moves in a row the first is a parity's.
    fn check_moved(&self) {
        let Record {
            n, stripes, moves, ..
        } = self.record;
        let (home, now) = (Layout::home(n, stripes), &self.layout);
        let is_elsewhere = |block| block < home.capacity() && home.place(block) != now.place(block);
        let mut count = 0;
        for block in 0..now.capacity() {
            let is_moved = now.is_moved(block);
            assert_eq!(is_moved, is_elsewhere(block), "{block} {:?}", self.record);
            count += u64::from(is_moved);
        }
        assert_eq!(count, moves - moves.div_ceil(n), "{:?}", self.record);
        let is_carried = |&stripe: &u64| home.parity(stripe) != now.parity(stripe);
        let parities = (0..stripes).filter(is_carried).count() as u64;
        assert_eq!(parities, moves.div_ceil(n), "{:?}", self.record);
    }

    fn loan(&self) -> Bytes {
        Bytes {
            record: self.record.bytes().to_vec(),
            images: Vec::new(),
            block: Vec::new(),
        }
    }

    /// Status, owner and locate by this record, so many stripes further on than here. All zones of those stripes are finished.
    fn check_further(&self, record: &Record, stripes: u64) {
        let mut loan = self.loan();
        loan.record = record.bytes().to_vec();
        let Record { n, m, .. } = self.record;
        let capacity = self.layout.capacity() + stripes * (n + m - 1);
        let status = loan.call(Call::Status);
        assert_eq!(status.beside[0], capacity, "{record:?}");
        let answer = loan.call(Call::Locate { block: capacity });
        assert_eq!(answer, Answer::refused(8), "{record:?}");
        let old = self.record.old_capacity();
        let further = |block| match block < old {
            true => block + stripes * (n - 1),
            false => block + stripes * (n + m - 1),
        };
        for (stripe, disk) in self.places(0) {
            let owner = match self.layout.owner(stripe, disk) {
                Owner::Data(block) => Owner::Data(further(block)),
                owner => owner,
            };
            let stripe = stripe + stripes;
            let answer = loan.call(Call::Owner { stripe, disk });
            assert_eq!(answer, owned(owner), "{stripe} {disk} {record:?}");
        }
        for block in 0..self.layout.capacity() {
            let mut wanted = located(&self.layout, block);
            wanted.beside[0] += stripes;
            let block = further(block);
            let answer = loan.call(Call::Locate { block });
            assert_eq!(answer, wanted, "{block} {record:?}");
        }
    }

    fn check_blocks(&self, blocks: impl Iterator<Item = u64>) {
        let mut loan = self.loan();
        for block in blocks {
            let answer = loan.call(Call::Locate { block });
            let wanted = located(&self.layout, block);
            assert_eq!(answer, wanted, "{block} {:?}", self.record);
        }
    }

    fn check_places(&self, places: impl Iterator<Item = (u64, u64)>) {
        let mut loan = self.loan();
        for (stripe, disk) in places {
            let answer = loan.call(Call::Owner { stripe, disk });
            let wanted = owned(self.layout.owner(stripe, disk));
            assert_eq!(answer, wanted, "{stripe} {disk} {:?}", self.record);
        }
    }
}

#[test]
fn before_growth() {
    for n in 3..=16 {
        let record = Record::new(n, 1, 100);
        let layout = Layout::of(&record);
        Growth { record, layout }.check();
    }
}

fn after_every_move(n: u64, m: u64, stripes: u64) {
    let mut growth = Growth::start(n, m, stripes);
    growth.check();
    while growth.left() > 0 {
        growth.advance(1);
        growth.check();
    }
}

/// Two groups, so that places beyond the first are seen too.
#[test]
fn small_shapes_after_every_move() {
    for (n, m) in [(3, 1), (3, 2), (4, 1), (4, 3), (5, 4), (3, 16)] {
        after_every_move(n, m, 2 * n * (n + m));
    }
}

/// With one group before the tail and with two. 4 and 2 have a common divisor.
#[test]
fn small_tails_after_every_move() {
    for (n, m) in [(3, 1), (3, 2), (4, 1), (4, 2), (5, 3), (3, 16)] {
        for tail in tails(n, m) {
            for groups in 1..=2 {
                after_every_move(n, m, groups * n * (n + m) + tail);
            }
        }
    }
}

/// With no whole group there is no move, and all places have their last owners at once.
#[test]
fn no_whole_group() {
    for n in 3..=16 {
        for m in 1..=16 {
            for stripes in tails(n, m) {
                let growth = Growth::start(n, m, stripes);
                let capacity = stripes * (n + m - 1);
                assert_eq!((growth.left(), growth.layout.capacity()), (0, capacity));
                growth.check();
            }
        }
    }
}

/// One group, without a tail and with one of every kind.
#[test]
fn every_shape_after_some_moves() {
    let mut random = Random::new("every_shape_after_some_moves");
    for n in 3..=16 {
        for m in 1..=16 {
            for tail in [0].into_iter().chain(tails(n, m)) {
                let mut growth = Growth::start(n, m, n * (n + m) + tail);
                let (zone, half) = (random.below(n * m), random.below(growth.left() / 2));
                for step in [1, n - 1, 1, zone, half] {
                    growth.advance(step.min(growth.left() - 1));
                    growth.check();
                }
                growth.advance(growth.left() - 1);
                growth.check();
                growth.advance(1);
                growth.check();
            }
        }
    }
}

/// As many stripes as there may be: tails of 4 stripes and of 1; or one less, with a group but for one stripe after the last.
#[test]
fn the_largest_arrays() {
    let mut random = Random::new("the_largest_arrays");
    for (n, m, stripes, tail) in [
        (3, 1, 1_048_576, 4),
        (3, 2, 1_048_576, 1),
        (4, 4, 1_048_575, 31),
    ] {
        let mut growth = Growth::start(n, m, stripes);
        assert_eq!(growth.record.tail(), tail);
        let half = growth.left() / 2 + random.below(growth.left() / 4);
        for step in [half, growth.left() - half] {
            growth.advance(step);
            growth.check_status();
            growth.check_tail();
            growth.check_moved();
            growth.check_end();
            let (capacity, disks) = (growth.layout.capacity(), growth.record.disks());
            let blocks: Vec<_> = (0..200_000).map(|_| random.below(capacity)).collect();
            growth.check_blocks(
                blocks
                    .into_iter()
                    .chain([0])
                    .chain(capacity - 1000..capacity),
            );
            let places: Vec<_> = (0..200_000)
                .map(|_| (random.below(stripes), random.below(disks)))
                .collect();
            growth.check_places(places.into_iter().chain(growth.places(stripes - 100)));
            // on both sides of where the finished zones end
            let finished = growth.record.moves / (n * m) * (n + m);
            let near = growth.places(finished - 20).take(40 * disks as usize);
            growth.check_places(near);
        }
    }
}

/// Every shape with as many stripes as there may be. All groups are alike: its last one, with the tail, is an array of just these
/// stripes, its blocks and moves numbered on from those before.
#[test]
fn the_last_stripes_of_the_largest_arrays() {
    for n in 3..=16 {
        for m in 1..=16 {
            let mut record = Record::new(n, 1, 1_048_576);
            record.m = m;
            let groups = record.stripes / record.group() - 1;
            let first = groups * record.group();
            let mut last = Growth::start(n, m, record.stripes - first);
            let zone = (n - 1) * n * m; // where the last one begins
            for made in [0, 1, zone - 1, n * m - 1, 1] {
                last.advance(made);
                record.moves = groups * n * n * m + last.record.moves;
                last.check_further(&record, first);
            }
            assert_eq!(last.left(), 0);
        }
    }
}
