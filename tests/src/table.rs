//! Document 01's table of refusals, row by row, 1 and 6 as request (a) of document 02 leaves them, 8 with the capacity of
//! request (b), with the record, the health and the calls of request (d), with row 11 of request (e), and with the call of request
//! (g).

use crate::pbm::Call::{self, *};
use crate::record::{Health, Record, RECORD_LEN};

/// The highest number that a call on an array can be given: row 11 is that of the calls on scan points.
pub const LAST: u8 = 10;

/// What the table reads of the slices that are lent; the length of one that a call does not take is not looked at.
#[derive(Clone, Copy, Debug)]
pub struct Lent {
    pub record_len: usize,
    /// whether the record's bytes, if they have its length, are good
    pub good: bool,
    pub images_len: usize,
    pub block_len: usize,
}

/// The numbers that a call on an array can answer, by its name.
pub fn rows(name: &str) -> &'static [u8] {
    match name {
        "format" => &[1, 6, 7],
        "read" | "write" => &[1, 2, 7, 8, 9],
        "grow" => &[1, 2, 3, 4, 6, 7],
        "advance" => &[1, 2, 3, 5, 7],
        "out" => &[1, 2, 10],
        "begin" | "continue" => &[1, 2, 7, 10],
        "status" => &[1],
        "locate" => &[1, 8],
        "owner" => &[1, 8, 10],
        "sweep" => &[1, 2, 3, 7],
        _ => panic!("no call {name}"),
    }
}

/// Whether the row's condition holds for this call, whatever those of the rows above say.
pub fn holds(row: u8, record: &Record, call: Call, lent: &Lent) -> bool {
    let is_rebuilding = matches!(record.health, Health::Rebuilding { .. });
    let is_degraded = is_rebuilding || matches!(record.health, Health::Out(_));
    match (row, call) {
        (1, Format { .. }) => lent.record_len != RECORD_LEN,
        (1, _) => lent.record_len != RECORD_LEN || !lent.good,
        (2, Format { .. } | Status | Locate { .. } | Owner { .. }) => false,
        (2, _) => record.health == Health::Lost,
        (3, Grow { .. } | Advance { .. } | Sweep) => is_degraded,
        (4, Grow { .. }) => record.m != 0,
        (5, Advance { .. }) => record.m == 0 || record.moves == record.total(),
        (
            6,
            Format {
                n,
                block_len,
                stripes,
            },
        ) => {
            !(3..=16).contains(&n)
                || !(1..=4096).contains(&block_len)
                || !(1..=1_048_576).contains(&stripes)
        }
        (6, Grow { m }) => !(1..=16).contains(&m),
        (
            7,
            Format {
                n,
                block_len,
                stripes,
            },
        ) => differs(lent.images_len, &[n, stripes, block_len]),
        (7, Grow { m }) => differs(
            lent.images_len,
            &[record.n.saturating_add(m), record.stripes, record.block_len],
        ),
        (
            7,
            Read { .. } | Write { .. } | Advance { .. } | Begin { .. } | Continue { .. } | Sweep,
        ) => differs(
            lent.images_len,
            &[record.disks(), record.stripes, record.block_len],
        ),
        (8, Read { block } | Write { block } | Locate { block }) => block >= record.capacity(),
        (8, Owner { stripe, .. }) => stripe >= record.stripes,
        (9, Read { .. } | Write { .. }) => lent.block_len as u64 != record.block_len,
        (10, Out { disk }) => disk >= record.disks() || record.health == Health::Out(disk),
        (10, Begin { disk }) => record.health != Health::Out(disk),
        (10, Continue { .. }) => !is_rebuilding,
        (10, Owner { disk, .. }) => disk >= record.disks(),
        _ => false,
    }
}

/// The lowest number whose condition holds, or 0.
pub fn refusal(record: &Record, call: Call, lent: &Lent) -> u8 {
    (1..=LAST)
        .find(|&row| holds(row, record, call, lent))
        .unwrap_or(0)
}

/// The same for the calls on scan points, by the lengths of what they are lent: row 11 is the only one that names them.
pub fn points_refusal(from_len: usize, into_len: usize) -> u8 {
    let is_odd = |len: usize| len % 2 == 1;
    if is_odd(from_len) || is_odd(into_len) || from_len != into_len {
        11
    } else {
        0
    }
}

/// Whether a length is not the product; factors may be any numbers.
fn differs(len: usize, factors: &[u64]) -> bool {
    let product = factors.iter().try_fold(1u64, |p, &f| p.checked_mul(f));
    product != Some(len as u64)
}
