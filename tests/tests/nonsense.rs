//! Any bytes in a record, any lengths, any numbers and any bytes in the images: the answer, and every byte of record, images and
//! block left, are those of a model that goes by the table and by the bytes. What is refused is not touched.

use yuzkamide_tests::bytewise::Bytewise;
use yuzkamide_tests::caller::any_tail;
use yuzkamide_tests::memory::{Guarded, Memory, Side};
use yuzkamide_tests::pbm::{Answer, Bytes, Call, Loan, NAMES};
use yuzkamide_tests::random::Random;
use yuzkamide_tests::record::{
    at, good, set_field, Health, Record, BENCH, GROWING, RECORD_LEN, ZONE_FINISHED,
};
use yuzkamide_tests::table::{refusal, Lent};

/// Good records of all kinds, none larger than 40 KB.
fn records() -> Vec<Record> {
    let grown = Record {
        moves: 18,
        ..GROWING
    };
    let large = Record {
        n: 16,
        m: 16,
        block_len: 2,
        stripes: 512,
        moves: 2049,
        ..BENCH
    };
    let with_tail = Record {
        stripes: 29,
        ..GROWING
    };
    let one_move_left = Record {
        moves: 17,
        ..with_tail
    };
    let no_group = Record {
        stripes: 14,
        moves: 0,
        ..GROWING
    };
    let out = |record: Record, disk| Record {
        health: Health::Out(disk),
        ..record
    };
    let lost = |record: Record| Record {
        health: Health::Lost,
        ..record
    };
    let rebuilding = |record: Record, disk, done| Record {
        health: Health::Rebuilding { disk, done },
        ..record
    };
    vec![
        BENCH,
        GROWING,
        grown,
        large,
        with_tail,
        one_move_left,
        no_group,
        ZONE_FINISHED,
        out(BENCH, 2),
        out(GROWING, 4),
        out(grown, 0),
        out(large, 31),
        out(with_tail, 3),
        out(one_move_left, 3),
        out(no_group, 3),
        out(ZONE_FINISHED, 3),
        lost(BENCH),
        lost(GROWING),
        rebuilding(BENCH, 2, 0),
        rebuilding(GROWING, 4, 7),
        rebuilding(grown, 0, 14),
        rebuilding(one_move_left, 3, 28),
        rebuilding(no_group, 3, 1),
        rebuilding(ZONE_FINISHED, 3, 5),
    ]
}

/// A call of each kind, right for the record if any is.
fn calls(record: &Record) -> [Call; NAMES.len()] {
    let [_, out, _] = record.health.numbers();
    [
        Call::Format {
            n: record.n,
            block_len: record.block_len,
            stripes: record.stripes,
        },
        Call::Read { block: 4 },
        Call::Write {
            block: record.capacity() - 1,
        },
        Call::Grow { m: 2 },
        Call::Advance { k: 3 },
        Call::Out { disk: 1 },
        Call::Begin { disk: out },
        Call::Continue { k: 3 },
        Call::Status,
        Call::Locate {
            block: record.capacity() - 1,
        },
        Call::Owner {
            stripe: record.stripes - 1,
            disk: record.disks() - 1,
        },
        Call::Sweep,
    ]
}

/// The length of images that the call asks for.
fn images_len(call: Call, record: &Record) -> usize {
    let disks = match call {
        Call::Format { .. } => record.n,
        Call::Grow { m } => record.n + m,
        _ => record.disks(),
    };
    (disks * record.stripes * record.block_len) as usize
}

fn bytes(call: Call, record: &Record) -> Bytes {
    Bytes {
        record: record.bytes().to_vec(),
        images: vec![0x5a; images_len(call, record)],
        block: vec![0xa5; record.block_len as usize],
    }
}

/// What the table says to the call on these bytes.
fn wanted(call: Call, lent: &Bytes) -> u8 {
    let record: [u8; RECORD_LEN] = lent.record[..].try_into().unwrap_or_default();
    let lengths = Lent {
        record_len: lent.record.len(),
        good: good(record),
        images_len: lent.images.len(),
        block_len: lent.block.len(),
    };
    refusal(&Record::of(record), call, &lengths)
}

/// Memory on either side of a protected page, to make calls in, and the model.
struct Desk {
    loans: [Loan<Guarded>; 2],
    model: Bytewise,
    /// How many calls of each kind were accepted, all of them compared.
    accepted: [u64; NAMES.len()],
}

impl Desk {
    fn new() -> Desk {
        Desk {
            loans: [Loan::guarded(Side::Start), Loan::guarded(Side::End)],
            model: Bytewise::default(),
            accepted: [0; NAMES.len()],
        }
    }

    /// Makes the call; the number that it gave, which is the table's. All that it answers and leaves is the model's.
    fn check(&mut self, call: Call, lent: &Bytes) -> u8 {
        let number = wanted(call, lent);
        let mut left = lent.clone();
        let answer = match number {
            0 => self.model.accept(call, &mut left),
            _ => Answer::refused(number),
        };
        for loan in &mut self.loans {
            loan.lend(lent);
            let what = || format!("{call:?} on record {:?}", lent.record);
            assert_eq!(loan.call(call), answer, "{}", what());
            let found = loan.left();
            assert_eq!(found.record, left.record, "the record of {}", what());
            assert!(found.images == left.images, "the images of {}", what());
            assert_eq!(found.block, left.block, "the block of {}", what());
        }
        if number == 0 {
            self.accepted[call.kind()] += 1;
        }
        number
    }

    /// Each call was accepted so often, in the order of `NAMES`.
    fn assert_accepted(&self, least: [u64; NAMES.len()]) {
        println!("accepted, in the order {NAMES:?}: {:?}", self.accepted);
        for ((name, count), least) in NAMES.iter().zip(self.accepted).zip(least) {
            assert!(count >= least, "{name} was accepted {count} times");
        }
    }
}

#[test]
fn good_records_with_one_bit_off() {
    let mut desk = Desk::new();
    let (mut still_good, mut bad) = (0, 0);
    for record in records() {
        for bit in 0..8 * RECORD_LEN {
            for call in calls(&record) {
                let mut lent = bytes(call, &record);
                lent.record[bit / 8] ^= 1 << (bit % 8);
                match desk.check(call, &lent) {
                    1 => bad += 1,
                    _ => still_good += 1,
                }
            }
        }
    }
    println!("{still_good} calls on good records, {bad} on others");
    assert!(still_good > 1000 && bad > 5000);
    let formats = (records().len() * 8 * RECORD_LEN) as u64; // which is lent any bytes
    desk.assert_accepted([formats, 140, 123, 2, 29, 818, 37, 54, 900, 836, 862, 31]);
}

/// A record of n = 3, m = 2, B = 4, T = 258 and t = 5, which is good but for health, disk and the stripes done: these three are given.
fn in_rebuild(health: u8, disk: u8, rebuilt: [u8; 4]) -> [u8; RECORD_LEN] {
    let [a, b, c, d] = rebuilt;
    [
        3, 2, health, disk, 4, 0, 0, 0, 2, 1, 0, 0, 5, 0, 0, 0, a, b, c, d,
    ]
}

/// By hand: which counts, disks and healths are good, for every call.
#[test]
fn records_of_a_rebuild() {
    let good = [
        in_rebuild(3, 0, [0, 0, 0, 0]),
        in_rebuild(3, 4, [255, 0, 0, 0]),
        in_rebuild(3, 1, [0, 1, 0, 0]),
        in_rebuild(3, 1, [1, 1, 0, 0]),
        in_rebuild(2, 0, [0, 0, 0, 0]),
        in_rebuild(1, 4, [0, 0, 0, 0]),
        in_rebuild(0, 0, [0, 0, 0, 0]),
    ];
    let mut bad = vec![
        in_rebuild(3, 1, [2, 1, 0, 0]), // T
        in_rebuild(3, 1, [3, 1, 0, 0]),
        in_rebuild(3, 1, [1, 2, 0, 0]),
        in_rebuild(3, 1, [1, 1, 1, 0]),
        in_rebuild(3, 1, [1, 1, 0, 1]),
        in_rebuild(3, 1, [0, 0, 0, 128]),
        in_rebuild(3, 1, [255; 4]),
        in_rebuild(3, 5, [0, 0, 0, 0]), // N
        in_rebuild(3, 255, [7, 0, 0, 0]),
        in_rebuild(4, 0, [0, 0, 0, 0]),
        in_rebuild(4, 1, [7, 0, 0, 0]),
        in_rebuild(255, 1, [7, 0, 0, 0]),
    ];
    for (health, disk) in [(0, 0), (1, 1), (2, 0)] {
        for byte in 0..4 {
            for value in [1, 128, 255] {
                let mut rebuilt = [0; 4];
                rebuilt[byte] = value;
                bad.push(in_rebuild(health, disk, rebuilt));
            }
        }
    }
    let mut desk = Desk::new();
    let mut is_bad = |record: [u8; RECORD_LEN], call: Call| {
        let mut lent = bytes(call, &Record::of(record));
        lent.record = record.to_vec();
        desk.check(call, &lent) == 1
    };
    let shape = Record::of(good[0]);
    for (i, call) in calls(&shape).into_iter().enumerate() {
        for record in good {
            assert!(!is_bad(record, call), "{call:?} on {record:?}");
        }
        for record in &bad {
            // format is lent any bytes
            assert_eq!(is_bad(*record, call), i > 0, "{call:?} on {record:?}");
        }
    }
}

/// "refusal 1 goes by that length": of a record that is good, cut or with zeroes after it, for every call and before all else.
#[test]
fn records_of_other_lengths() {
    for record in records() {
        for call in calls(&record) {
            for len in [0, 1, 15, 16, 17, 19, 21, 32, 40] {
                let mut lent = bytes(call, &record);
                lent.record.resize(len, 0);
                for images_len in [lent.images.len(), 0] {
                    lent.images.truncate(images_len);
                    let before = lent.clone();
                    assert_eq!(lent.call(call), Answer::refused(1), "{call:?}, {len} bytes");
                    assert!(lent == before, "{call:?}, {len} bytes");
                }
            }
        }
    }
}

#[test]
fn every_value_of_every_byte_of_a_record() {
    let mut desk = Desk::new();
    let rebuilding = Record {
        health: Health::Rebuilding { disk: 1, done: 7 },
        ..GROWING
    };
    for record in [BENCH, GROWING, rebuilding] {
        for at in 0..RECORD_LEN {
            for value in 0..=255 {
                for call in [
                    Call::Read { block: 4 },
                    Call::Out { disk: 1 },
                    Call::Continue { k: 3 },
                    Call::Status,
                    Call::Sweep,
                ] {
                    let mut lent = bytes(call, &record);
                    lent.record[at] = value;
                    desk.check(call, &lent);
                }
            }
        }
    }
}

/// Records with each field near its limits, so that some half of them are good.
#[test]
fn random_records() {
    let mut random = Random::new("random_records");
    let mut desk = Desk::new();
    let (mut accepted, mut refused) = (0, 0);
    for _ in 0..10_000 {
        let record = random_record(&mut random);
        for call in calls(&GROWING) {
            let mut lent = bytes(call, &GROWING);
            lent.record = record.to_vec();
            let fields = Record::of(record);
            if random.one_in(2) && fields.images_len() < 10_000 {
                lent.images = random.bytes(images_len(call, &fields));
                lent.block = random.bytes(fields.block_len as usize);
            }
            match desk.check(call, &lent) {
                0 => accepted += 1,
                _ => refused += 1,
            }
        }
    }
    println!("{accepted} accepted, {refused} refused");
    assert!(accepted > 10_000 && refused > 10_000);
    desk.assert_accepted([2000, 300, 300, 20, 100, 500, 20, 100, 1000, 1000, 1000, 150]);
}

fn random_record(random: &mut Random) -> [u8; RECORD_LEN] {
    let n = 2 + random.below(5);
    let m = random.below(4);
    let mut record = Record {
        n,
        m,
        health: Health::Whole,
        block_len: random.below(5),
        stripes: n * (n + m) * random.below(3) + any_tail(random, n, m),
        moves: 0,
    };
    record.moves = random.below(record.total() + 2);
    let mut bytes = record.bytes();
    let health = random.below(17) / 4;
    set_field(&mut bytes, at::HEALTH, health);
    if [1, 3].contains(&health) || random.one_in(16) {
        set_field(&mut bytes, at::OUT, random.below(n + m + 1));
    }
    if health == 3 || random.one_in(16) {
        let rebuilt = random.below(record.stripes + 2);
        set_field(&mut bytes, at::REBUILT, rebuilt);
    }
    if random.one_in(8) {
        bytes[random.below(RECORD_LEN as u64) as usize] = random.word() as u8;
    }
    bytes
}

#[test]
fn bytes_without_any_sense() {
    let mut random = Random::new("bytes_without_any_sense");
    let mut desk = Desk::new();
    for _ in 0..5_000 {
        for call in calls(&GROWING) {
            let mut lent = bytes(call, &GROWING);
            random.fill(&mut lent.record);
            desk.check(call, &lent);
        }
    }
}

#[test]
fn every_length_off() {
    let mut desk = Desk::new();
    for record in records() {
        for call in calls(&record) {
            let right = bytes(call, &record);
            for record_len in lengths(RECORD_LEN).into_iter().chain([16, 4096]) {
                for images_len in lengths(right.images.len()) {
                    for block_len in lengths(right.block.len()) {
                        let mut lent = right.clone();
                        lent.record.resize(record_len, 0);
                        lent.images.resize(images_len, 0);
                        lent.block.resize(block_len, 0);
                        desk.check(call, &lent);
                    }
                }
            }
        }
    }
}

fn lengths(right: usize) -> [usize; 6] {
    [0, 1, right - 1, right, right + 1, 2 * right]
}

#[test]
fn every_number_off() {
    let mut desk = Desk::new();
    for record in records() {
        for number in numbers(&record) {
            for call in [
                Call::Format {
                    n: number,
                    block_len: record.block_len,
                    stripes: record.stripes,
                },
                Call::Format {
                    n: record.n,
                    block_len: number,
                    stripes: record.stripes,
                },
                Call::Format {
                    n: record.n,
                    block_len: record.block_len,
                    stripes: number,
                },
                Call::Read { block: number },
                Call::Write { block: number },
                Call::Advance { k: number },
                Call::Out { disk: number },
                Call::Begin { disk: number },
                Call::Continue { k: number },
                Call::Locate { block: number },
                Call::Owner {
                    stripe: number,
                    disk: 0,
                },
                Call::Owner {
                    stripe: 0,
                    disk: number,
                },
            ] {
                desk.check(call, &bytes(call, &record));
            }
            let call = Call::Grow { m: number };
            for m in [0, 1, 2, 16] {
                desk.check(call, &bytes(Call::Grow { m }, &record));
            }
        }
    }
}

/// Good records of every kind with any bytes in the images, so that no stripe is sound, and calls that are accepted.
#[test]
fn accepted_calls_on_any_bytes() {
    let mut random = Random::new("accepted_calls_on_any_bytes");
    let mut desk = Desk::new();
    let mut early = 0;
    for _ in 0..4_000 {
        let record = random_array(&mut random);
        for call in random_calls(&mut random, &record) {
            let lent = Bytes {
                record: record.bytes().to_vec(),
                images: random.bytes(images_len(call, &record)),
                block: random.bytes(record.block_len as usize),
            };
            let number = desk.check(call, &lent);
            early += (number == 0 && is_early(call, &record)) as u32;
        }
    }
    desk.assert_accepted([
        4000, 3000, 3000, 200, 500, 2000, 500, 700, 4000, 4000, 4000, 1500,
    ]);
    println!("{early} accepted on new blocks in a growth");
    assert!(early > 400);
}

/// Whether it is for a new block while moves are left.
fn is_early(call: Call, record: &Record) -> bool {
    match call {
        Call::Read { block } | Call::Write { block } | Call::Locate { block } => {
            block >= record.old_capacity() && !record.is_grown()
        }
        _ => false,
    }
}

/// A good record of an array before, during or after a growth, of whatever health.
fn random_array(random: &mut Random) -> Record {
    let n = 3 + random.below(6);
    let m = random.below(6);
    let mut record = Record {
        n,
        m,
        health: Health::Whole,
        block_len: 1 + random.below(9),
        stripes: (n * (n + m) * random.below(4) + any_tail(random, n, m)).max(1),
        moves: 0,
    };
    record.moves = match random.below(4) {
        0 => 0,
        1 => record.total(),
        _ => random.below(record.total() + 1),
    };
    let disk = random.below(record.disks());
    record.health = match random.below(12) {
        0 => Health::Lost,
        1 | 2 => Health::Out(disk),
        3..=5 => Health::Rebuilding {
            disk,
            done: random.below(record.stripes),
        },
        _ => Health::Whole,
    };
    record
}

/// A call of each kind with numbers in their limits, so that health and growth alone can refuse it.
fn random_calls(random: &mut Random, record: &Record) -> [Call; NAMES.len()] {
    let mut calls = calls(record);
    for call in &mut calls {
        match call {
            Call::Read { block } | Call::Write { block } | Call::Locate { block } => {
                *block = random.below(record.capacity())
            }
            Call::Grow { m } => *m = 1 + random.below(16),
            Call::Advance { k } => *k = random.below(40),
            Call::Out { disk } => *disk = random.below(record.disks()),
            Call::Owner { stripe, disk } => {
                (*stripe, *disk) = (random.below(record.stripes), random.below(record.disks()))
            }
            Call::Continue { k } => *k = random.below(40),
            Call::Format { .. } | Call::Begin { .. } | Call::Status | Call::Sweep => {}
        }
    }
    calls
}

/// Numbers around all limits, and the same again with high bits set.
fn numbers(record: &Record) -> Vec<u64> {
    let limits = [
        0,
        record.n,
        16,
        record.disks(),
        record.block_len,
        4096,
        record.stripes,
        1_048_576,
        record.total(),
        record.capacity(),
        record.images_len(),
    ];
    let near = limits
        .iter()
        .flat_map(|&x| [x.wrapping_sub(1), x, x + 1])
        .collect::<Vec<u64>>();
    let high = [0, 1 << 8, 1 << 16, 1 << 31, 1 << 32, 1 << 48, 1 << 63];
    high.iter()
        .flat_map(|high| near.iter().map(move |x| x.wrapping_add(*high)))
        .collect()
}

/// Lengths that a product in 32 bits, or one that leaves out a factor, would take for right.
#[test]
fn products_beyond_32_bits() {
    let mut desk = Desk::new();
    let record = Record {
        n: 4,
        block_len: 4096,
        stripes: 1_048_576,
        ..BENCH
    };
    assert_eq!(record.images_len(), 1 << 34);
    for call in calls(&record) {
        for images_len in [0, 4, 4096, 4 * 4096, 1 << 20, 1 << 22] {
            let lent = Bytes {
                record: record.bytes().to_vec(),
                images: vec![0; images_len],
                block: vec![0; 4096],
            };
            let number = desk.check(call, &lent);
            assert!(number != 0 || !call.takes_images());
        }
    }
}

/// A slice of 2^40 bytes is refused by its length; no byte of it can be touched here.
#[test]
fn huge_slices() {
    const HUGE: usize = 1 << 40;
    for record in records() {
        for call in calls(&record) {
            let right = bytes(call, &record);
            let number = |lent: Lent| refusal(&record, call, &lent);
            let lengths = Lent {
                record_len: RECORD_LEN,
                good: true,
                images_len: right.images.len(),
                block_len: right.block.len(),
            };
            let guarded = || {
                let mut loan = Loan::guarded(Side::End);
                loan.lend(&right);
                loan
            };

            let mut loan = guarded();
            loan.record = Guarded::sealed(HUGE);
            assert_eq!(loan.call(call), Answer::refused(1), "{call:?}");
            if call.takes_images() {
                let mut loan = guarded();
                loan.images = Guarded::sealed(HUGE);
                let images_len = HUGE;
                let wanted = number(Lent {
                    images_len,
                    ..lengths
                });
                assert_eq!(loan.call(call), Answer::refused(wanted), "{call:?}");
                assert_eq!(loan.record.bytes(), right.record);
            }
            if call.takes_block() {
                let mut loan = guarded();
                loan.block = Guarded::sealed(HUGE);
                let block_len = HUGE;
                let wanted = number(Lent {
                    block_len,
                    ..lengths
                });
                assert_eq!(loan.call(call), Answer::refused(wanted), "{call:?}");
                assert!(loan.images.bytes() == right.images);
            }
        }
    }
}
