//! Request (e) of document 02, scan points side by side: what each way makes of slices of every short even length and of long ones,
//! byte for byte, and that the other way restores them, in both orders; and every refusal, which changes no byte. All of it in
//! memory that ends the run when a byte outside of what was lent is touched, or one of the source written.

use std::iter::successors;
use std::ops::RangeInclusive;
use yuzkamide_tests::memory::{on_fault_tell, Guarded, Memory, Side};
use yuzkamide_tests::pbm::Way;
use yuzkamide_tests::points::{bytes, made, packed, side_by_side, unpacked};
use yuzkamide_tests::random::Random;
use yuzkamide_tests::table::points_refusal;

/// Sources and targets, one of each right after a closed page and one right before one.
struct Desk {
    sources: [Guarded; 2],
    targets: [Guarded; 2],
}

impl Desk {
    fn new() -> Desk {
        let sides = || [Side::Start, Side::End].map(Guarded::new);
        Desk {
            sources: sides(),
            targets: sides(),
        }
    }

    /// The same, and random numbers, whose seed a fault tells.
    fn and_random(test: &str) -> (Desk, Random) {
        let seed = Random::seed(test);
        on_fault_tell(seed);
        (Desk::new(), Random::seeded(seed))
    }

    /// Calls from each source into each target, which holds `before`, and sees that the answer is `number` and `left` what is there.
    fn call(&mut self, way: Way, from: &[u8], before: &[u8], number: u8, left: &[u8]) {
        for source in &mut self.sources {
            source.hold(from);
            for target in &mut self.targets {
                target.hold(before);
                let what = || format!("{way:?} of {} bytes into {}", from.len(), before.len());
                let answer = way.call(source.shared(), target.exclusive());
                assert_eq!(answer, number, "{}", what());
                assert!(target.bytes() == left, "{} left other bytes", what());
            }
        }
    }

    /// Every byte of the target is written: it held another one before.
    fn makes(&mut self, way: Way, from: &[u8], made: &[u8]) {
        let others: Vec<u8> = made.iter().map(|byte| !byte).collect();
        self.call(way, from, &others, 0, made);
    }

    /// Whatever byte were written, in one of two targets it is another one than before.
    fn refuses(&mut self, way: Way, from: &[u8], into_len: usize) {
        for byte in [0x00, 0xff] {
            let kept = vec![byte; into_len];
            self.call(way, from, &kept, 11, &kept);
        }
    }

    fn there_and_back(&mut self, points: &[u8], packed: &[u8]) {
        self.makes(Way::Pack, points, packed);
        self.makes(Way::Unpack, packed, points);
    }

    /// Any bytes are points, and any are points packed.
    fn in_both_orders(&mut self, bytes: &[u8]) {
        self.there_and_back(bytes, &packed(bytes));
        self.there_and_back(&unpacked(bytes), bytes);
    }
}

/// The bytes of two hexadecimal digits each.
fn hex(text: &str) -> Vec<u8> {
    text.split_whitespace()
        .map(|digits| u8::from_str_radix(digits, 16).unwrap())
        .collect()
}

#[test]
fn by_hand() {
    for (points, packed) in [
        ("", ""),
        ("00 00", "00 00"),
        ("64 00", "64 00"),
        ("34 12", "34 12"),
        ("ff ff", "ff ff"),
        // 100, 103, 101
        ("64 00 67 00 65 00", "64 03 fe 00 00 ff"),
        // a carry from the low byte to the high one, and the other way
        ("ff 00 00 01", "ff 01 00 00"),
        ("00 01 ff 00", "00 ff 01 ff"),
        // over 65,535, and the other way
        ("ff ff 00 00 01 00", "ff 01 01 ff 00 00"),
        ("00 00 ff ff fe ff", "00 ff ff 00 ff ff"),
        ("01 02 03 04 05 06 07 08", "01 02 02 02 02 02 02 02"),
        ("10 27 10 27 10 27", "10 00 00 27 00 00"),
    ] {
        let (points, packed) = (hex(points), hex(packed));
        Desk::new().there_and_back(&points, &packed);
    }
}

const EDGES: [u16; 5] = [0, 1, 0x7fff, 0x8000, 0xffff];

/// By hand: a row for the point before, a column for the next.
const DIFFERENCES: [[u16; 5]; 5] = [
    [0x0000, 0x0001, 0x7fff, 0x8000, 0xffff],
    [0xffff, 0x0000, 0x7ffe, 0x7fff, 0xfffe],
    [0x8001, 0x8002, 0x0000, 0x0001, 0x8000],
    [0x8000, 0x8001, 0xffff, 0x0000, 0x7fff],
    [0x0001, 0x0002, 0x8000, 0x8001, 0x0000],
];

/// At every place of slices that are a pair alone, a lane of 16 points, two or three of them, or a point more or less: all points
/// before the pair are as its first one, all after it as its second.
#[test]
fn every_pair_of_edges() {
    let mut desk = Desk::new();
    for (before, row) in EDGES.into_iter().zip(DIFFERENCES) {
        for (next, difference) in EDGES.into_iter().zip(row) {
            for count in [2, 15, 16, 17, 31, 32, 33, 47, 48, 49] {
                for at in 1..count {
                    let mut points = vec![before; count];
                    points[at..].fill(next);
                    let mut differences = vec![0; count];
                    (differences[0], differences[at]) = (before, difference);
                    desk.there_and_back(&bytes(&points), &side_by_side(&differences));
                }
            }
        }
    }
}

/// Points that begin with this one, each `step` from the one before.
fn walk(count: usize, first: u16, mut step: impl FnMut() -> u16) -> Vec<u8> {
    let points = successors(Some(first), |point| Some(point.wrapping_add(step())));
    bytes(&points.take(count).collect::<Vec<_>>())
}

/// Any bytes, neighbours that differ little, all zero, all ff, rising and falling.
fn slices(random: &mut Random, count: usize) -> [Vec<u8>; 6] {
    let first = random.word() as u16;
    [
        random.bytes(2 * count),
        walk(count, first, || (random.below(7) as u16).wrapping_sub(3)),
        walk(count, 0, || 0),
        walk(count, 0xffff, || 0),
        walk(count, first, || 259),
        walk(count, first, || 0u16.wrapping_sub(259)),
    ]
}

fn counts_in_both_orders(test: &str, ranges: &[RangeInclusive<usize>]) {
    let (mut desk, mut random) = Desk::and_random(test);
    for count in ranges.iter().cloned().flatten() {
        for slice in slices(&mut random, count) {
            desk.in_both_orders(&slice);
        }
    }
}

#[test]
fn every_even_length_up_to_300() {
    counts_in_both_orders("every_even_length_up_to_300", &[0..=150]);
}

/// All rests of lanes of 16 points, and blocks of just a page and a little less and more.
#[test]
fn lengths_of_blocks() {
    counts_in_both_orders("lengths_of_blocks", &[240..=272, 2032..=2064]);
}

/// 64 KiB and a little more, 1 MiB and a little less, 2 MiB and a little more.
#[test]
fn long_slices() {
    let counts = [32_768..=32_769, 524_287..=524_288, 1_048_576..=1_048_577];
    counts_in_both_orders("long_slices", &counts);
}

/// Lengths of source and target, by hand: both odd, one of them, and none; one of them longer by a byte, by a point and by much.
const REFUSED: &[(usize, usize)] = &[
    (1, 1),
    (31, 31),
    (33, 33),
    (4095, 4095),
    (1, 3),
    (33, 31),
    (31, 4095),
    (4097, 33),
    (0, 1),
    (1, 0),
    (31, 32),
    (32, 31),
    (32, 33),
    (33, 32),
    (4095, 4096),
    (4096, 4095),
    (2, 4095),
    (4095, 2),
    (0, 2),
    (2, 0),
    (30, 32),
    (32, 30),
    (32, 64),
    (64, 32),
    (4096, 4098),
    (4098, 4096),
    (0, 4096),
    (4096, 0),
    (2, 4096),
    (4096, 2),
];

#[test]
fn lengths_that_are_refused() {
    let mut desk = Desk::new();
    for &(from_len, into_len) in REFUSED {
        let from: Vec<u8> = (0..from_len).map(|at| at as u8 ^ 0x5a).collect();
        assert_eq!(points_refusal(from_len, into_len), 11);
        for way in Way::BOTH {
            desk.refuses(way, &from, into_len);
        }
    }
}

#[test]
fn every_pair_of_short_lengths() {
    let (mut desk, mut random) = Desk::and_random("every_pair_of_short_lengths");
    for from_len in 0..=70 {
        let from = random.bytes(from_len);
        for into_len in 0..=70 {
            for way in Way::BOTH {
                match points_refusal(from_len, into_len) {
                    0 => desk.makes(way, &from, &made(way, &from)),
                    _ => desk.refuses(way, &from, into_len),
                }
            }
        }
    }
}

/// Odd ones, and pairs that are equal in their low 8, 16, 32 or 40 bits; no byte of either slice can be touched here.
#[test]
fn huge_lengths_that_are_refused() {
    for bits in [8, 16, 32, 40] {
        let more = 1 << bits;
        for (from_len, into_len) in [
            (4, more + 4),
            (more + 4, 4),
            (0, more),
            (more, 0),
            (more, 2 * more),
            (more + 1, more + 1),
        ] {
            for way in Way::BOTH {
                let (mut from, mut into) = (Guarded::sealed(from_len), Guarded::sealed(into_len));
                let answer = way.call(from.shared(), into.exclusive());
                assert_eq!(answer, 11, "{way:?} of {from_len} bytes into {into_len}");
            }
        }
    }
}

/// Source and target at every place modulo 16, each in the middle of other bytes. These, and the source, stay as they were.
#[test]
fn every_alignment() {
    const ROOM: usize = 160;
    let mut random = Random::new("every_alignment");
    for len in [0, 2, 30, 32, 34, 62, 64, 66, 128] {
        for (from_at, into_at) in (0..16).flat_map(|f| (0..16).map(move |i| (f, i))) {
            for way in Way::BOTH {
                let (from, mut into) = (random.bytes(ROOM), random.bytes(ROOM));
                let (source, mut wanted) = (from.clone(), into.clone());
                wanted[into_at..][..len].copy_from_slice(&made(way, &from[from_at..][..len]));
                let answer = way.call(&from[from_at..][..len], &mut into[into_at..][..len]);
                let what = || format!("{way:?} of {len} bytes at {from_at} to {into_at}");
                assert_eq!(answer, 0, "{}", what());
                assert!(into == wanted, "the target of {}", what());
                assert!(from == source, "the source of {}", what());
            }
        }
    }
}
