//! Request (d) of document 02: rebuilds in steps of every length, of every disk, before, in and after growths, with tails and with no
//! whole group. What each step makes, counts and leaves alone; what blocks hold meanwhile, read and written at every count; the disk
//! that fails again at every count, and another one; and a growth that stands still and then goes on.

use yuzkamide_tests::array::Array;
use yuzkamide_tests::images;
use yuzkamide_tests::pbm::{Answer, Bytes, Call};
use yuzkamide_tests::random::Random;
use yuzkamide_tests::record::{Health, Record};

/// n, m, T and t.
type Shape = (u64, u64, u64, u64);

const SHAPES: [Shape; 17] = [
    // before a growth
    (3, 0, 1, 0),
    (3, 0, 2, 0),
    (4, 0, 11, 0),
    (16, 0, 3, 0),
    // one group: no move made, in the middle, with a zone finished, all made
    (3, 1, 12, 0),
    (3, 1, 12, 2),
    (3, 2, 15, 7),
    (3, 2, 15, 18),
    // with a tail
    (3, 1, 14, 5),
    (3, 2, 17, 0),
    (3, 2, 17, 13),
    (3, 2, 17, 18),
    (4, 2, 29, 13),
    // no whole group
    (3, 2, 14, 0),
    (4, 1, 19, 0),
    (5, 3, 9, 0),
    (16, 16, 2, 0),
];

const BLOCK: u64 = 3;

/// What a block is given in this turn.
fn data(block: u64, turn: u64) -> [u8; BLOCK as usize] {
    [1 + (block % 251) as u8, (block / 251) as u8, turn as u8]
}

/// A whole array, each block written in turn 0.
fn whole((n, m, stripes, moves): Shape) -> Array {
    let mut array = Array::format(n, BLOCK, stripes);
    if m > 0 {
        assert_eq!(array.grow(m), Answer::done(&[]));
    }
    if moves > 0 {
        assert_eq!(array.advance(moves), Answer::done(&[moves]));
    }
    write_all(&mut array, 0);
    array
}

fn write_all(array: &mut Array, turn: u64) {
    for block in 0..array.record().capacity() {
        array.write(block, &data(block, turn));
    }
}

fn read_all(array: &mut Array, turn: u64) {
    for block in 0..array.record().capacity() {
        let record = array.record();
        assert_eq!(array.read(block), data(block, turn), "{block}, {record:?}");
    }
}

/// A rebuild that has begun.
struct Rebuild<'a> {
    array: Array,
    disk: u64,
    /// Before the disk went out.
    whole: Record,
    done: u64,
    random: &'a mut Random,
}

impl Rebuild<'_> {
    fn begin(random: &mut Random, mut array: Array, disk: u64) -> Rebuild<'_> {
        let whole = array.record();
        assert_eq!(whole.health, Health::Whole);
        assert_eq!(array.out(disk), Answer::done(&[]));
        let mut rebuild = Rebuild {
            array,
            disk,
            whole,
            done: 0,
            random,
        };
        rebuild.scribble();
        let before = rebuild.array.0.images.clone();
        assert_eq!(rebuild.array.begin(disk), Answer::done(&[]));
        rebuild.look_at_record();
        assert!(
            rebuild.array.0.images == before,
            "a begin leaves the images"
        );
        rebuild
    }

    fn left(&self) -> u64 {
        self.whole.stripes - self.done
    }

    /// New bytes in all stripes of the disk that are not done.
    fn scribble(&mut self) {
        let stripes = self.done..self.whole.stripes;
        let range = images::part(&self.whole, self.disk, stripes);
        self.random.fill(&mut self.array.0.images[range]);
    }

    fn health(&self) -> Health {
        match self.left() {
            0 => Health::Whole,
            _ => Health::Rebuilding {
                disk: self.disk,
                done: self.done,
            },
        }
    }

    /// The record's bytes, and what status tells of them.
    fn look_at_record(&mut self) {
        let health = self.health();
        let record = Record {
            health,
            ..self.whole
        };
        assert_eq!(self.array.0.record, record.bytes());
        let [number, disk, done] = health.numbers();
        let Record { moves, .. } = record;
        let told = [record.capacity(), moves, record.total(), number, disk, done];
        assert_eq!(self.array.call(Call::Status), Answer::done(&told));
    }

    /// Continues by k: the next stripes of the disk are each the xor of the other places, and no other byte is touched.
    fn step(&mut self, k: u64) {
        self.scribble();
        let made = k.min(self.left());
        let mut wanted = self.array.0.images.clone();
        for stripe in self.done..self.done + made {
            let own = images::place(&self.whole, stripe, self.disk);
            wanted[own.clone()].fill(0);
            for other in (0..self.whole.disks()).filter(|&d| d != self.disk) {
                let from = wanted[images::place(&self.whole, stripe, other)].to_vec();
                images::xor(&mut wanted[own.clone()], &from);
            }
        }
        let what = format!("{k} of disk {} on {:?}", self.disk, self.array.record());
        assert_eq!(self.array.proceed(k), Answer::done(&[made]), "{what}");
        assert!(self.array.0.images == wanted, "{what}");
        self.done += made;
        self.look_at_record();
    }

    /// The stripes that are not done hold on this disk what they held; all else is as in an array that has no disk out.
    fn look_at_write(&self, before: &[u8], twin: &[u8]) {
        let loose = images::part(&self.whole, self.disk, self.done..self.whole.stripes);
        let left = &self.array.0.images;
        let what = self.array.record();
        assert!(left[loose.clone()] == before[loose.clone()], "{what:?}");
        assert!(left[..loose.start] == twin[..loose.start], "{what:?}");
        assert!(left[loose.end..] == twin[loose.end..], "{what:?}");
    }

    /// All steps, after each of which every block is read, and what they leave.
    fn run(mut self, steps: impl IntoIterator<Item = u64>) -> Bytes {
        for k in steps {
            self.scribble();
            read_all(&mut self.array, 0);
            self.step(k);
        }
        assert_eq!(self.left(), 0);
        read_all(&mut self.array, 0);
        assert_eq!(self.array.proceed(1), Answer::refused(10));
        self.array.0.block.fill(0);
        self.array.0
    }
}

/// For each shape and each of its disks.
fn for_each_disk(mut check: impl FnMut(&mut Random, Shape, u64)) {
    let mut random = Random::new("rebuilds");
    for shape in SHAPES {
        for disk in 0..shape.0 + shape.1 {
            check(&mut random, shape, disk);
        }
    }
}

#[test]
fn steps_of_every_length() {
    for_each_disk(|random, shape, disk| {
        let stripes = shape.2;
        let by = |random: &mut Random, steps: Vec<u64>| {
            Rebuild::begin(random, whole(shape), disk).run(steps)
        };
        let mut first = whole(shape).0;
        first.block.fill(0);
        for k in 1..=stripes {
            let steps = stripes.div_ceil(k);
            let left = by(random, vec![k; steps as usize]);
            assert!(left == first, "steps of {k} stripes, {shape:?}");
        }
        for k in [stripes + 1, 1 << 32, u64::MAX] {
            assert!(by(random, vec![k]) == first, "all at once, {shape:?}");
        }
    });
}

/// Some of no stripes, and the last one of more than are left.
#[test]
fn steps_of_mixed_lengths() {
    for_each_disk(|random, shape, disk| {
        let mut steps = vec![0];
        while steps.iter().sum::<u64>() < shape.2 {
            steps.push(random.below(6));
        }
        let left = Rebuild::begin(random, whole(shape), disk).run(steps);
        assert!(left.images == whole(shape).0.images, "{shape:?}");
    });
}

/// "as the xor of the others", also where stripes are not sound: in blank places too.
#[test]
fn steps_over_any_bytes() {
    for_each_disk(|random, shape, disk| {
        let mut rebuild = Rebuild::begin(random, whole(shape), disk);
        rebuild.random.fill(&mut rebuild.array.0.images);
        while rebuild.left() > 0 {
            let k = 1 + rebuild.random.below(5);
            rebuild.step(k);
        }
    });
}

/// At every count all blocks are written, each after a scribble on what is not done, and read. What is left is what writes to a whole
/// array leave.
#[test]
fn writes_at_every_count() {
    for_each_disk(|random, shape, disk| {
        let mut rebuild = Rebuild::begin(random, whole(shape), disk);
        let mut twin = whole(shape);
        let stripes = shape.2;
        for turn in 1..=stripes {
            for block in 0..twin.record().capacity() {
                rebuild.scribble();
                let before = rebuild.array.0.images.clone();
                rebuild.array.write(block, &data(block, turn));
                twin.write(block, &data(block, turn));
                rebuild.look_at_write(&before, &twin.0.images);
            }
            read_all(&mut rebuild.array, turn);
            rebuild.step(1);
        }
        assert!(rebuild.array.0.images == twin.0.images, "{shape:?}");
    });
}

/// "the same disk out means out again": the count is gone, whatever it was, and all of the disk may hold any bytes.
#[test]
fn the_same_disk_at_every_count() {
    for_each_disk(|random, shape, disk| {
        for done in 0..shape.2 {
            let mut rebuild = Rebuild::begin(random, whole(shape), disk);
            rebuild.step(done);
            let record = rebuild.whole;
            let mut array = rebuild.array;
            assert_eq!(array.out(disk), Answer::done(&[]));
            let health = Health::Out(disk);
            assert_eq!(array.0.record, Record { health, ..record }.bytes());
            assert_eq!(array.out(disk), Answer::refused(10));
            assert_eq!(array.proceed(1), Answer::refused(10));
            random.fill(&mut array.0.images[images::disk(&record, disk)]);
            read_all(&mut array, 0);
            assert_eq!(array.begin(disk), Answer::done(&[]));
            let health = Health::Rebuilding { disk, done: 0 };
            assert_eq!(array.0.record, Record { health, ..record }.bytes());
            read_all(&mut array, 0);
            assert_eq!(array.proceed(u64::MAX), Answer::done(&[shape.2]));
            assert!(array.0.images == whole(shape).0.images, "{shape:?}");
        }
    });
}

/// "Another disk out means lost"
#[test]
fn another_disk_at_every_count() {
    for_each_disk(|random, shape, disk| {
        let other = (disk + 1) % (shape.0 + shape.1);
        for done in 0..shape.2 {
            let mut rebuild = Rebuild::begin(random, whole(shape), disk);
            rebuild.step(done);
            let record = rebuild.whole;
            let mut array = rebuild.array;
            assert_eq!(array.out(other), Answer::done(&[]));
            let health = Health::Lost;
            assert_eq!(array.0.record, Record { health, ..record }.bytes());
            for call in [
                Call::Read { block: 0 },
                Call::Write { block: 0 },
                Call::Out { disk },
                Call::Begin { disk },
                Call::Continue { k: 1 },
                Call::Sweep,
            ] {
                assert_eq!(array.call(call), Answer::refused(2), "{call:?}");
            }
        }
    });
}

/// "Grow and advance still see degraded.", and of a sweep request (g) says: "3 also while rebuilding". After the rebuild the growth goes
/// on, and ends as one that had no disk out.
#[test]
fn a_growth_stands_still_at_every_count() {
    for_each_disk(|random, shape, disk| {
        let mut rebuild = Rebuild::begin(random, whole(shape), disk);
        while rebuild.left() > 0 {
            let before = rebuild.array.0.clone();
            for call in [
                Call::Advance { k: 0 },
                Call::Advance { k: 1 },
                Call::Grow { m: 1 },
                Call::Sweep,
            ] {
                assert_eq!(rebuild.array.call(call), Answer::refused(3), "{call:?}");
            }
            assert!(rebuild.array.0 == before);
            rebuild.step(1);
        }
        let (mut array, mut twin) = (rebuild.array, whole(shape));
        if shape.1 == 0 {
            assert_eq!(array.grow(2), twin.grow(2));
        }
        let left = twin.record().total() - twin.record().moves;
        for k in [left / 2, left - left / 2] {
            assert_eq!(array.advance(k), twin.advance(k));
        }
        assert!(array.record().is_grown());
        assert!(array.0.record == twin.0.record && array.0.images == twin.0.images);
    });
}
