//! Every row of document 01's table of refusals, 1 and 6 as request (a) of document 02 leaves them, 8 with the capacity of
//! request (b), with the record, the health and the calls of request (d), and with the call of request (g), for every call that it
//! names: alone, and with a lower row's condition holding as well, which then wins; and every call in every health. A refused call
//! changes no byte and sets every number beside its answer to 0. What an accepted one answers and leaves is held to a model that goes
//! by the bytes. (Row 11 names no call on an array: points.rs has it.)

use std::collections::HashSet;
use yuzkamide_tests::bytewise::Bytewise;
use yuzkamide_tests::memory::Side;
use yuzkamide_tests::pbm::{Answer, Bytes, Call, Loan, NAMES};
use yuzkamide_tests::random::Random;
use yuzkamide_tests::record::{
    at, field, good, set_field, Health, Record, BENCH, GROWING, RECORD_LEN,
};
use yuzkamide_tests::table::{holds, rows, Lent, LAST};

/// One call and what it is lent.
#[derive(Clone, Debug)]
struct Case {
    call: Call,
    record: Record,
    /// What is done to the record's bytes.
    damage: Option<fn(&mut Vec<u8>)>,
    images_len: u64,
    block_len: u64,
}

/// A call of this name that is accepted: n = 3, m = 2, T = 15, B = 4.
fn accepted(name: &str) -> Case {
    let case = |call, record: Record, images_len| Case {
        call,
        record,
        damage: None,
        images_len,
        block_len: 4,
    };
    let degraded = Record {
        health: Health::Out(1),
        ..GROWING
    };
    let rebuilding = Record {
        health: rebuilding(1, 4),
        ..GROWING
    };
    match name {
        "format" => case(
            Call::Format {
                n: 3,
                block_len: 4,
                stripes: 15,
            },
            BENCH,
            180,
        ),
        "read" => case(Call::Read { block: 4 }, GROWING, 300),
        "write" => case(Call::Write { block: 4 }, GROWING, 300),
        "grow" => case(Call::Grow { m: 2 }, BENCH, 300),
        "advance" => case(Call::Advance { k: 3 }, GROWING, 300),
        "out" => case(Call::Out { disk: 1 }, GROWING, 0),
        "begin" => case(Call::Begin { disk: 1 }, degraded, 300),
        "continue" => case(Call::Continue { k: 3 }, rebuilding, 300),
        "status" => case(Call::Status, GROWING, 0),
        "locate" => case(Call::Locate { block: 4 }, GROWING, 0),
        "owner" => case(Call::Owner { stripe: 2, disk: 1 }, GROWING, 0),
        "sweep" => case(Call::Sweep, GROWING, 300),
        _ => panic!("no call {name}"),
    }
}

const fn rebuilding(disk: u64, done: u64) -> Health {
    Health::Rebuilding { disk, done }
}

/// One way to make a row's condition hold for some calls.
struct Spoil {
    calls: &'static [&'static str],
    row: u8,
    how: &'static str,
    change: fn(&mut Case),
}

const fn spoil(
    calls: &'static [&'static str],
    row: u8,
    how: &'static str,
    change: fn(&mut Case),
) -> Spoil {
    Spoil {
        calls,
        row,
        how,
        change,
    }
}

const ALL: &[&str] = &NAMES;
const BUT_FORMAT: &[&str] = &[
    "read", "write", "grow", "advance", "out", "begin", "continue", "status", "locate", "owner",
    "sweep",
];
const ON_BLOCKS: &[&str] = &["read", "write"];
const ON_NUMBERED: &[&str] = &["read", "write", "locate"];
const ON_DISKS: &[&str] = &["out", "begin", "owner"];
const ON_IMAGES: &[&str] = &[
    "format", "read", "write", "grow", "advance", "begin", "continue", "sweep",
];
const IN_HEALTH: &[&str] = &[
    "read", "write", "grow", "advance", "out", "begin", "continue", "sweep",
];
const ON_WHOLE: &[&str] = &["grow", "advance", "sweep"];

const SPOILS: &[Spoil] = &[
    spoil(ALL, 1, "no record", |c| c.damage = Some(|r| r.clear())),
    spoil(ALL, 1, "a record a byte short", |c| {
        c.damage = Some(|r| r.truncate(RECORD_LEN - 1))
    }),
    spoil(ALL, 1, "a record a byte long", |c| {
        c.damage = Some(|r| r.push(0))
    }),
    spoil(ALL, 1, "a record of 16 bytes", |c| {
        c.damage = Some(|r| r.truncate(16))
    }),
    spoil(ALL, 1, "a record twice as long", |c| {
        c.damage = Some(|r| r.resize(2 * RECORD_LEN, 0))
    }),
    spoil(BUT_FORMAT, 1, "n = 2", |c| {
        c.damage = Some(|r| set_field(r, at::N, 2))
    }),
    spoil(BUT_FORMAT, 1, "n = 17", |c| {
        c.damage = Some(|r| set_field(r, at::N, 17))
    }),
    spoil(BUT_FORMAT, 1, "m = 17", |c| {
        c.damage = Some(|r| set_field(r, at::M, 17))
    }),
    spoil(BUT_FORMAT, 1, "health 4", |c| {
        c.damage = Some(|r| set_health(r, 4, 0, 0))
    }),
    spoil(BUT_FORMAT, 1, "health 4 with disk and count", |c| {
        c.damage = Some(|r| set_health(r, 4, 1, 4))
    }),
    spoil(BUT_FORMAT, 1, "an out disk of no disk", |c| {
        c.damage = Some(|r| set_health(r, 1, 5, 0))
    }),
    spoil(BUT_FORMAT, 1, "whole with an out disk", |c| {
        c.damage = Some(|r| set_health(r, 0, 1, 0))
    }),
    spoil(BUT_FORMAT, 1, "lost with an out disk", |c| {
        c.damage = Some(|r| set_health(r, 2, 1, 0))
    }),
    spoil(BUT_FORMAT, 1, "rebuilding no disk", |c| {
        c.damage = Some(|r| set_health(r, 3, 5, 0))
    }),
    spoil(BUT_FORMAT, 1, "rebuilding, T stripes done", |c| {
        c.damage = Some(|r| {
            let stripes = field(r, at::STRIPES);
            set_health(r, 3, 1, stripes)
        })
    }),
    spoil(BUT_FORMAT, 1, "rebuilding, 2^24 stripes done", |c| {
        c.damage = Some(|r| set_health(r, 3, 1, 1 << 24))
    }),
    spoil(BUT_FORMAT, 1, "rebuilding, 2^32 - 1 stripes done", |c| {
        c.damage = Some(|r| set_health(r, 3, 1, u32::MAX.into()))
    }),
    spoil(BUT_FORMAT, 1, "whole with a count", |c| {
        c.damage = Some(|r| set_health(r, 0, 0, 1))
    }),
    spoil(BUT_FORMAT, 1, "out with a count", |c| {
        c.damage = Some(|r| set_health(r, 1, 1, 1 << 8))
    }),
    spoil(BUT_FORMAT, 1, "lost with a count", |c| {
        c.damage = Some(|r| set_health(r, 2, 0, 1 << 16))
    }),
    spoil(BUT_FORMAT, 1, "whole with a count of 2^24", |c| {
        c.damage = Some(|r| set_health(r, 0, 0, 1 << 24))
    }),
    spoil(BUT_FORMAT, 1, "B = 0", |c| {
        c.damage = Some(|r| set_field(r, at::BLOCK_LEN, 0))
    }),
    spoil(BUT_FORMAT, 1, "B = 4100", |c| {
        c.damage = Some(|r| set_field(r, at::BLOCK_LEN, 4100))
    }),
    spoil(BUT_FORMAT, 1, "the first byte of no field", |c| {
        c.damage = Some(|r| r[at::ZERO.start] = 1)
    }),
    spoil(BUT_FORMAT, 1, "the last byte of no field", |c| {
        c.damage = Some(|r| r[at::ZERO.end - 1] = 128)
    }),
    spoil(BUT_FORMAT, 1, "T = 0", |c| {
        c.damage = Some(|r| set_field(r, at::STRIPES, 0))
    }),
    spoil(BUT_FORMAT, 1, "T above 1,048,576", |c| {
        c.damage = Some(|r| set_field(r, at::STRIPES, 1_048_576 + 15))
    }),
    spoil(BUT_FORMAT, 1, "t above the total", |c| {
        c.damage = Some(|r| set_field(r, at::MOVES, 19))
    }),
    spoil(BUT_FORMAT, 1, "t above the total, with a tail", |c| {
        c.damage = Some(|r| set_growth(r, 2, 29, 19))
    }),
    spoil(BUT_FORMAT, 1, "t = 1, no whole group", |c| {
        c.damage = Some(|r| set_growth(r, 2, 14, 1))
    }),
    spoil(BUT_FORMAT, 1, "t = 1, m = 0", |c| {
        c.damage = Some(|r| {
            set_field(r, at::M, 0);
            set_field(r, at::MOVES, 1);
        })
    }),
    spoil(IN_HEALTH, 2, "lost", |c| c.record.health = Health::Lost),
    spoil(ON_WHOLE, 3, "disk 0 out", |c| {
        c.record.health = Health::Out(0)
    }),
    spoil(ON_WHOLE, 3, "disk 2 out", |c| {
        c.record.health = Health::Out(2)
    }),
    spoil(ON_WHOLE, 3, "the rebuild of disk 0 begun", |c| {
        c.record.health = rebuilding(0, 0)
    }),
    spoil(ON_WHOLE, 3, "disk 2 rebuilt but for a stripe", |c| {
        c.record.health = rebuilding(2, 14)
    }),
    spoil(&["sweep"], 3, "disk 4 out, before a growth of 5", |c| {
        (c.record.n, c.record.m, c.record.moves) = (5, 0, 0);
        c.record.health = Health::Out(4)
    }),
    spoil(&["sweep"], 3, "disk 4 out, the growth over", |c| {
        (c.record.moves, c.record.health) = (18, Health::Out(4))
    }),
    spoil(
        &["sweep"],
        3,
        "disk 4 being rebuilt, the growth over",
        |c| (c.record.moves, c.record.health) = (18, rebuilding(4, 7)),
    ),
    spoil(&["grow"], 4, "m = 2", |c| c.record.m = 2),
    spoil(&["grow"], 4, "m = 2, under way", |c| {
        (c.record.m, c.record.moves) = (2, 7)
    }),
    spoil(&["grow"], 4, "m = 2, complete", |c| {
        (c.record.m, c.record.moves) = (2, 18)
    }),
    spoil(&["grow"], 4, "m = 2, no whole group", |c| {
        (c.record.m, c.record.stripes, c.images_len) = (2, 14, 280)
    }),
    spoil(&["advance"], 5, "m = 0", |c| {
        (c.record.m, c.record.moves, c.images_len) = (0, 0, 180)
    }),
    spoil(&["advance"], 5, "t is the total", |c| c.record.moves = 18),
    spoil(&["advance"], 5, "t is the total, k = 0", |c| {
        (c.record.moves, c.call) = (18, Call::Advance { k: 0 })
    }),
    spoil(&["advance"], 5, "t is the total, with a tail", |c| {
        (c.record.moves, c.record.stripes, c.images_len) = (18, 29, 580)
    }),
    spoil(&["advance"], 5, "no whole group", |c| {
        (c.record.moves, c.record.stripes, c.images_len) = (0, 14, 280)
    }),
    spoil(&["format"], 6, "n = 0", |c| format(c, 0, 4, 15)),
    spoil(&["format"], 6, "n = 2", |c| format(c, 2, 4, 15)),
    spoil(&["format"], 6, "n = 17", |c| format(c, 17, 4, 15)),
    spoil(&["format"], 6, "n = 259", |c| format(c, 259, 4, 15)),
    spoil(&["format"], 6, "n = 2^64 - 1", |c| {
        format(c, u64::MAX, 4, 15)
    }),
    spoil(&["format"], 6, "B = 0", |c| format(c, 3, 0, 15)),
    spoil(&["format"], 6, "B = 4097", |c| format(c, 3, 4097, 15)),
    spoil(&["format"], 6, "B = 65540", |c| format(c, 3, 65540, 1)),
    spoil(&["format"], 6, "B = 2^64 - 1", |c| {
        format(c, 3, u64::MAX, 15)
    }),
    spoil(&["format"], 6, "T = 0", |c| format(c, 3, 4, 0)),
    spoil(&["format"], 6, "T = 1,048,577", |c| {
        format(c, 3, 1, 1_048_577)
    }),
    spoil(&["format"], 6, "T = 2^32 + 15", |c| {
        format(c, 3, 4, (1 << 32) + 15)
    }),
    spoil(&["format"], 6, "T = 2^64 - 1", |c| {
        format(c, 3, 4, u64::MAX)
    }),
    spoil(&["format"], 6, "a product of 180 modulo 2^64", |c| {
        format(c, (1 << 62) + 3, 4, 15)
    }),
    spoil(&["grow"], 6, "m = 0", |c| grow(c, 0, 180)),
    spoil(&["grow"], 6, "m = 17", |c| grow(c, 17, 1200)),
    spoil(&["grow"], 6, "m = 255", |c| grow(c, 255, 15_480)),
    spoil(&["grow"], 6, "m = 256", |c| grow(c, 256, 15_540)),
    spoil(&["grow"], 6, "m = 258", |c| grow(c, 258, 15_660)),
    spoil(&["grow"], 6, "m = 258, as 2", |c| grow(c, 258, 300)),
    spoil(&["grow"], 6, "m = 2^32 + 2, as 2", |c| {
        grow(c, (1 << 32) + 2, 300)
    }),
    spoil(&["grow"], 6, "m = 2^64 - 1", |c| grow(c, u64::MAX, 120)),
    spoil(&["grow"], 6, "m = 2^64 - 3: n + m = 0", |c| {
        grow(c, u64::MAX - 2, 0)
    }),
    spoil(&["grow"], 6, "m = 0, one stripe", |c| {
        c.record.stripes = 1;
        grow(c, 0, 12)
    }),
    spoil(&["grow"], 6, "m = 17, no whole group", |c| {
        c.record.stripes = 59;
        grow(c, 17, 4720)
    }),
    spoil(ON_IMAGES, 7, "a byte more", |c| c.images_len += 1),
    spoil(ON_IMAGES, 7, "a byte less", |c| {
        c.images_len = c.images_len.saturating_sub(1)
    }),
    spoil(ON_IMAGES, 7, "none", |c| c.images_len = 0),
    spoil(ON_IMAGES, 7, "a disk more", |c| c.images_len += 60),
    spoil(ON_IMAGES, 7, "a disk less", |c| {
        c.images_len = c.images_len.saturating_sub(60)
    }),
    spoil(
        &[
            "read", "write", "grow", "advance", "begin", "continue", "sweep",
        ],
        7,
        "n disks",
        |c| c.images_len = 180,
    ),
    spoil(&["sweep"], 7, "n + m disks before a growth", |c| {
        (c.record.m, c.record.moves) = (0, 0)
    }),
    spoil(&["sweep"], 7, "n disks, the growth over", |c| {
        (c.record.moves, c.images_len) = (18, 180)
    }),
    spoil(&["sweep"], 7, "whole groups alone, with a tail", |c| {
        c.record.stripes = 29
    }),
    spoil(ON_NUMBERED, 8, "the capacity", |c| number(c, 30)),
    spoil(ON_NUMBERED, 8, "a block that comes later", |c| {
        number(c, 59)
    }),
    spoil(ON_NUMBERED, 8, "2^32 + 4", |c| number(c, (1 << 32) + 4)),
    spoil(ON_NUMBERED, 8, "2^64 - 1", |c| number(c, u64::MAX)),
    spoil(ON_NUMBERED, 8, "the grown capacity", |c| {
        c.record.moves = 18;
        number(c, 60)
    }),
    spoil(ON_NUMBERED, 8, "the capacity, zone 0 finished", |c| {
        c.record.moves = 6;
        number(c, 40)
    }),
    spoil(ON_NUMBERED, 8, "the capacity, zone 1 but for a move", |c| {
        c.record.moves = 11;
        number(c, 40)
    }),
    spoil(
        ON_NUMBERED,
        8,
        "the capacity, zones 0 and 1 finished",
        |c| {
            c.record.moves = 12;
            number(c, 50)
        },
    ),
    spoil(ON_NUMBERED, 8, "the capacity, all but a move made", |c| {
        c.record.moves = 17;
        number(c, 50)
    }),
    spoil(ON_NUMBERED, 8, "the capacity, with a tail", |c| {
        (c.record.moves, c.record.stripes, c.images_len) = (17, 29, 580);
        number(c, 78)
    }),
    spoil(ON_NUMBERED, 8, "a block of the tail, a move left", |c| {
        (c.record.moves, c.record.stripes, c.images_len) = (17, 29, 580);
        number(c, 115)
    }),
    spoil(ON_NUMBERED, 8, "the grown capacity, with a tail", |c| {
        (c.record.moves, c.record.stripes, c.images_len) = (18, 29, 580);
        number(c, 116)
    }),
    spoil(ON_NUMBERED, 8, "the grown capacity, no whole group", |c| {
        (c.record.moves, c.record.stripes, c.images_len) = (0, 14, 280);
        number(c, 56)
    }),
    spoil(&["owner"], 8, "T", |c| stripe(c, 15)),
    spoil(&["owner"], 8, "2^32 + 2", |c| stripe(c, (1 << 32) + 2)),
    spoil(&["owner"], 8, "2^64 - 1", |c| stripe(c, u64::MAX)),
    spoil(ON_BLOCKS, 9, "a byte less", |c| c.block_len = 3),
    spoil(ON_BLOCKS, 9, "a byte more", |c| c.block_len = 5),
    spoil(ON_BLOCKS, 9, "none", |c| c.block_len = 0),
    spoil(ON_BLOCKS, 9, "two blocks", |c| c.block_len = 8),
    spoil(ON_BLOCKS, 9, "260 bytes", |c| c.block_len = 260),
    spoil(ON_DISKS, 10, "N", |c| disk(c, 5)),
    spoil(ON_DISKS, 10, "257", |c| disk(c, 257)),
    spoil(ON_DISKS, 10, "2^32 + 1", |c| disk(c, (1 << 32) + 1)),
    spoil(ON_DISKS, 10, "2^64 - 1", |c| disk(c, u64::MAX)),
    spoil(&["out"], 10, "out already", |c| {
        c.record.health = Health::Out(1)
    }),
    spoil(&["out"], 10, "N, another is being rebuilt", |c| {
        c.record.health = rebuilding(1, 4);
        disk(c, 5)
    }),
    spoil(&["begin"], 10, "another is out", |c| disk(c, 2)),
    spoil(&["begin"], 10, "none is out", |c| {
        c.record.health = Health::Whole;
        disk(c, 0)
    }),
    spoil(&["begin"], 10, "begun already", |c| {
        c.record.health = rebuilding(1, 0)
    }),
    spoil(&["begin"], 10, "being rebuilt", |c| {
        c.record.health = rebuilding(1, 14)
    }),
    spoil(&["begin"], 10, "another is being rebuilt", |c| {
        c.record.health = rebuilding(2, 4)
    }),
    spoil(&["continue"], 10, "none is out", |c| {
        c.record.health = Health::Whole
    }),
    spoil(&["continue"], 10, "one is out", |c| {
        c.record.health = Health::Out(1)
    }),
    spoil(&["continue"], 10, "none is out, k = 0", |c| {
        c.record.health = Health::Whole;
        c.call = Call::Continue { k: 0 }
    }),
];

fn set_growth(record: &mut [u8], m: u64, stripes: u64, moves: u64) {
    set_field(record, at::M, m);
    set_field(record, at::STRIPES, stripes);
    set_field(record, at::MOVES, moves);
}

fn set_health(record: &mut [u8], health: u64, out: u64, rebuilt: u64) {
    set_field(record, at::HEALTH, health);
    set_field(record, at::OUT, out);
    set_field(record, at::REBUILT, rebuilt);
}

/// With images of the length that the numbers ask for, where there is memory for it.
fn format(case: &mut Case, n: u64, block_len: u64, stripes: u64) {
    case.call = Call::Format {
        n,
        block_len,
        stripes,
    };
    let len = n.wrapping_mul(block_len).wrapping_mul(stripes);
    case.images_len = if len < 1 << 22 { len } else { 180 };
}

fn grow(case: &mut Case, m: u64, images_len: u64) {
    (case.call, case.images_len) = (Call::Grow { m }, images_len);
}

fn number(case: &mut Case, number: u64) {
    match &mut case.call {
        Call::Read { block } | Call::Write { block } | Call::Locate { block } => *block = number,
        call => panic!("{call:?} has no block number"),
    }
}

fn stripe(case: &mut Case, number: u64) {
    match &mut case.call {
        Call::Owner { stripe, .. } => *stripe = number,
        call => panic!("{call:?} has no stripe"),
    }
}

fn disk(case: &mut Case, number: u64) {
    match &mut case.call {
        Call::Out { disk } | Call::Begin { disk } | Call::Owner { disk, .. } => *disk = number,
        call => panic!("{call:?} has no disk"),
    }
}

impl Case {
    /// What is lent, with any bytes in images and block.
    fn bytes(&self) -> Bytes {
        let mut random = Random::seeded(self.images_len);
        let mut record = self.record.bytes().to_vec();
        if let Some(damage) = self.damage {
            damage(&mut record);
        }
        Bytes {
            record,
            images: random.bytes(self.images_len as usize),
            block: random.bytes(self.block_len as usize),
        }
    }

    /// The rows whose conditions hold, those from 2 on read on the record without its damage.
    fn holding(&self) -> Vec<u8> {
        let lent = Lent {
            record_len: RECORD_LEN,
            good: self.damage.is_none() && good(self.record.bytes()),
            images_len: self.images_len as usize,
            block_len: self.block_len as usize,
        };
        let damaged = |row: u8| row == 1 && self.damage.is_some();
        (1..=LAST)
            .filter(|&row| damaged(row) || holds(row, &self.record, self.call, &lent))
            .collect()
    }

    /// Makes the call, its slices once after a protected page and once before one, and sees that it gives this number; that a
    /// refusal sets the numbers beside it to 0 and changes no byte, and that what is accepted answers and leaves what it should.
    fn gives(&self, number: u8, how: &str) {
        let lent = self.bytes();
        let mut wanted = lent.clone();
        let answer = match number {
            0 => Bytewise::default().accept(self.call, &mut wanted),
            _ => Answer::refused(number),
        };
        for side in [Side::Start, Side::End] {
            let mut loan = Loan::guarded(side);
            loan.lend(&lent);
            assert_eq!(loan.call(self.call), answer, "{how}: {self:?}");
            let left = loan.left();
            assert_eq!(left.record, wanted.record, "record, {how}: {self:?}");
            assert!(left.images == wanted.images, "images, {how}: {self:?}");
            assert_eq!(left.block, wanted.block, "block, {how}: {self:?}");
        }
    }
}

fn spoils(name: &str) -> impl Iterator<Item = &'static Spoil> + Clone + use<'_> {
    SPOILS.iter().filter(move |s| s.calls.contains(&name))
}

#[test]
fn each_call_is_accepted_unspoilt() {
    for name in NAMES {
        let case = accepted(name);
        assert_eq!(case.holding(), [], "{name}");
        case.gives(0, "unspoilt");
    }
}

/// Each call with the numbers that it is given: whole, with disk 1 out, with disk 1 being rebuilt, and lost.
#[test]
fn every_call_in_every_health() {
    let of = |name| accepted(name).call;
    let table = [
        (of("format"), [0, 0, 0, 0]),
        (of("read"), [0, 0, 0, 2]),
        (of("write"), [0, 0, 0, 2]),
        (of("grow"), [0, 3, 3, 2]),
        (of("advance"), [0, 3, 3, 2]),
        (Call::Out { disk: 0 }, [0, 0, 0, 2]),
        (Call::Out { disk: 1 }, [0, 10, 0, 2]),
        (Call::Out { disk: 5 }, [10, 10, 10, 2]),
        (Call::Begin { disk: 0 }, [10, 10, 10, 2]),
        (Call::Begin { disk: 1 }, [10, 0, 10, 2]),
        (Call::Begin { disk: 5 }, [10, 10, 10, 2]),
        (Call::Continue { k: 0 }, [10, 10, 0, 2]),
        (Call::Continue { k: 1 }, [10, 10, 0, 2]),
        (Call::Continue { k: u64::MAX }, [10, 10, 0, 2]),
        (Call::Status, [0, 0, 0, 0]),
        (of("locate"), [0, 0, 0, 0]),
        (of("owner"), [0, 0, 0, 0]),
        (Call::Sweep, [0, 3, 3, 2]),
    ];
    for (call, [whole, out, being_rebuilt, lost]) in table {
        let mut healths = vec![
            (Health::Whole, whole),
            (Health::Out(1), out),
            (Health::Lost, lost),
        ];
        healths.extend((0..15).map(|done| (rebuilding(1, done), being_rebuilt)));
        for (health, number) in healths {
            let mut case = accepted(call.name());
            (case.call, case.record.health) = (call, health);
            let lowest = case.holding().first().copied().unwrap_or(0);
            assert_eq!(lowest, number, "{case:?}");
            case.gives(number, "in every health");
        }
    }
}

/// Whatever T is: with a tail of any length, with none, and with no whole group.
#[test]
fn every_growth_is_accepted() {
    for stripes in 1..=60 {
        for m in 1..=16 {
            let record = Record { stripes, ..BENCH };
            let mut case = Case {
                record,
                ..accepted("grow")
            };
            grow(&mut case, m, (3 + m) * stripes * 4);
            assert_eq!(case.holding(), [], "{case:?}");
            case.gives(0, "any T");
        }
    }
}

/// "1, 2, 3, 7 as for advance", and so none where an advance is refused 5: before a growth, at every t up to the total, with a tail,
/// and with no whole group.
#[test]
fn a_sweep_needs_nothing_to_move() {
    let growths = [(3, 0, 15), (3, 2, 15), (3, 2, 29), (3, 2, 14), (4, 1, 19)];
    let mut idle = 0;
    for (n, m, stripes) in growths {
        let home = Record::new(n, 4, stripes);
        for moves in 0..=(Record { m, ..home }).total() {
            let record = Record { m, moves, ..home };
            let case = |name| Case {
                record,
                images_len: record.images_len(),
                ..accepted(name)
            };
            let refusals = match m == 0 || record.is_grown() {
                true => vec![5],
                false => vec![],
            };
            assert_eq!(case("advance").holding(), refusals, "{record:?}");
            assert_eq!(case("sweep").holding(), [], "{record:?}");
            case("sweep").gives(0, "at every t");
            idle += refusals.len();
        }
    }
    assert_eq!(idle, growths.len());
}

/// A new block is past the end until its zone is finished, one of the tail until the last move is made.
#[test]
fn a_block_is_past_the_end_until_it_comes() {
    // with T = 15, and with a tail of 2 stripes, the first and the last block that are there from so many moves on
    let blocks = [
        (15, [(0, 29, 0), (30, 39, 6), (40, 49, 12), (50, 59, 18)]),
        (17, [(0, 33, 0), (34, 43, 6), (44, 53, 12), (54, 67, 18)]),
    ];
    for (stripes, zones) in blocks {
        for (first, last, came) in zones {
            for moves in 0..=18 {
                for (name, block) in ON_NUMBERED.iter().flat_map(|n| [(n, first), (n, last)]) {
                    let mut case = accepted(name);
                    (case.record.stripes, case.record.moves) = (stripes, moves);
                    case.images_len = case.record.images_len();
                    number(&mut case, block);
                    let refusals = if moves < came { vec![8] } else { vec![] };
                    assert_eq!(case.holding(), refusals, "{case:?}");
                    case.gives(if moves < came { 8 } else { 0 }, "at every t");
                }
            }
        }
    }
}

/// Growths of n + m disks over T stripes, and their totals: the record is good up to there and no further, for every call. Beside
/// the total the capacities with no move made, half of them, all but one, and all.
#[test]
fn a_record_is_good_up_to_its_total() {
    let totals: &[(u64, u64, u64, u64, [u64; 4])] = &[
        (4, 1, 1, 0, [4; 4]),
        (4, 1, 19, 0, [76; 4]),
        (4, 1, 20, 16, [60, 70, 75, 80]),
        (4, 1, 21, 16, [63, 73, 78, 84]),
        (4, 1, 39, 16, [117, 127, 132, 156]),
        (4, 1, 40, 32, [120, 140, 155, 160]),
        (4, 2, 23, 0, [115; 4]),
        (4, 2, 29, 32, [87, 111, 123, 145]),
        (4, 2, 47, 32, [141, 165, 177, 235]),
        (4, 2, 48, 64, [144, 192, 228, 240]),
        (5, 3, 39, 0, [273; 4]),
        (5, 3, 47, 75, [188, 236, 284, 329]),
        (3, 16, 56, 0, [1008; 4]),
        (3, 16, 57, 144, [114, 418, 722, 1026]),
        (
            3,
            16,
            1_048_576,
            2_649_024,
            [2_097_152, 10_485_728, 18_874_000, 18_874_368],
        ),
        (
            3,
            1,
            1_048_576,
            786_429,
            [2_097_152, 2_621_436, 3_145_720, 3_145_728],
        ),
        (
            16,
            15,
            1_048_576,
            8_117_760,
            [15_728_640, 23_592_720, 31_456_335, 31_457_280],
        ),
        (16, 16, 511, 0, [15_841; 4]),
        (16, 16, 1023, 4096, [15_345, 19_441, 23_025, 31_713]),
        (
            16,
            16,
            1_048_576,
            8_388_608,
            [15_728_640, 24_117_248, 32_505_344, 32_505_856],
        ),
    ];
    for &(n, m, stripes, total, capacities) in totals {
        let mut record = Record::new(n, 4, stripes);
        record.m = m;
        let case = |name, record: Record| Case {
            record,
            images_len: record.images_len().min(1 << 18),
            ..accepted(name)
        };
        let counts = [0, total / 2, total.saturating_sub(1), total];
        for (moves, capacity) in counts.into_iter().zip(capacities) {
            record.moves = moves;
            let answer = Answer::done(&[capacity, moves, total, 0, 0]);
            let status = case("status", record).bytes().call(Call::Status);
            assert_eq!(status, answer, "{record:?}");
            // larger ones are not replayed
            for name in BUT_FORMAT.iter().filter(|_| stripes < 2000) {
                let case = case(name, record);
                let row = case.holding().first().copied().unwrap_or(0);
                assert_ne!(row, 1, "{case:?}");
                case.gives(row, "t at most the total");
            }
        }
        for moves in [total + 1, total + 2, stripes * n * m / (n + m) + 1] {
            record.moves = moves;
            for name in BUT_FORMAT {
                let case = case(name, record);
                assert_eq!(case.holding()[0], 1, "{case:?}");
                case.gives(1, "t above the total");
            }
        }
    }
}

#[test]
fn each_row_alone() {
    for name in NAMES {
        let mut alone = HashSet::new();
        for spoil in spoils(name) {
            let mut case = accepted(name);
            (spoil.change)(&mut case);
            let holding = case.holding();
            assert_eq!(holding[0], spoil.row, "{name}: {}", spoil.how);
            if holding.len() == 1 {
                alone.insert(spoil.row);
            }
            case.gives(spoil.row, spoil.how);
        }
        for row in rows(name) {
            // an array that is lost has no one disk out, nor one that is being rebuilt: then 10 holds too
            let never = *row == 2 && ["begin", "continue"].contains(&name);
            assert_eq!(alone.contains(row), !never, "{name}: {row} alone");
        }
    }
}

#[test]
fn the_lowest_number_wins() {
    for name in NAMES {
        let mut tried = HashSet::new();
        for low in spoils(name) {
            for high in spoils(name).filter(|high| high.row > low.row) {
                let mut case = accepted(name);
                (low.change)(&mut case);
                (high.change)(&mut case);
                let holding = case.holding();
                if holding.contains(&low.row) && holding.contains(&high.row) {
                    case.gives(holding[0], &format!("{} and {}", low.how, high.how));
                    tried.insert((holding[0], high.row));
                }
            }
        }
        for pair in rows(name).windows(2) {
            // an array that is lost has no one disk out: 2 and 3 cannot both hold
            let both = (pair[0], pair[1]);
            assert!(both == (2, 3) || tried.contains(&both), "{name}: {both:?}");
        }
    }
}
