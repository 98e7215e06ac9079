//! The twelve calls of include/pbm.h on an array, and its two on scan points, on memory that is lent to them.

use crate::memory::{Guarded, Memory, Side};

/// A call with its numbers.
#[derive(Clone, Copy, Debug, PartialEq, Eq)]
pub enum Call {
    Format {
        n: u64,
        block_len: u64,
        stripes: u64,
    },
    Read {
        block: u64,
    },
    Write {
        block: u64,
    },
    Grow {
        m: u64,
    },
    Advance {
        k: u64,
    },
    Out {
        disk: u64,
    },
    Begin {
        disk: u64,
    },
    Continue {
        k: u64,
    },
    Status,
    Locate {
        block: u64,
    },
    Owner {
        stripe: u64,
        disk: u64,
    },
    Sweep,
}

/// The calls on an array in the order of include/pbm.h.
pub const NAMES: [&str; 12] = [
    "format", "read", "write", "grow", "advance", "out", "begin", "continue", "status", "locate",
    "owner", "sweep",
];

/// The name of a call's function in its family's crate and in `lent`: `continue` is a word of the language.
pub fn in_rattle(name: &str) -> &str {
    match name {
        "begin" => "begin_rebuild",
        "continue" => "continue_rebuild",
        _ => name,
    }
}

/// The crate of a call's family.
pub fn family(name: &str) -> &'static str {
    match name {
        "read" | "view" | "write" => "access",
        "format" | "grow" | "advance" => "growth",
        "out" | "begin" | "continue" => "repair",
        "sweep" => "scrub",
        "status" | "locate" | "owner" => "queries",
        _ => panic!("{name} is no call"),
    }
}

impl Call {
    /// Its position in `NAMES`.
    pub fn kind(self) -> usize {
        match self {
            Call::Format { .. } => 0,
            Call::Read { .. } => 1,
            Call::Write { .. } => 2,
            Call::Grow { .. } => 3,
            Call::Advance { .. } => 4,
            Call::Out { .. } => 5,
            Call::Begin { .. } => 6,
            Call::Continue { .. } => 7,
            Call::Status => 8,
            Call::Locate { .. } => 9,
            Call::Owner { .. } => 10,
            Call::Sweep => 11,
        }
    }

    pub fn name(self) -> &'static str {
        NAMES[self.kind()]
    }

    pub fn takes_images(self) -> bool {
        use Call::*;
        !matches!(self, Out { .. } | Status | Locate { .. } | Owner { .. })
    }

    pub fn takes_block(self) -> bool {
        matches!(self, Call::Read { .. } | Call::Write { .. })
    }
}

/// What a call returns, and the numbers beside it in the order of include/pbm.h; 0 where a call has fewer than six.
#[derive(Clone, Copy, Debug, PartialEq, Eq)]
pub struct Answer {
    pub number: u8,
    pub beside: [u64; 6],
}

impl Answer {
    pub const fn refused(number: u8) -> Answer {
        Answer {
            number,
            beside: [0; 6],
        }
    }

    pub fn done(beside: &[u64]) -> Answer {
        let mut answer = Answer::refused(0);
        answer.beside[..beside.len()].copy_from_slice(beside);
        answer
    }
}

/// What one call is lent. `block` is what read fills and what holds a write's data.
#[derive(Clone, PartialEq, Eq)]
pub struct Loan<M> {
    pub record: M,
    pub images: M,
    pub block: M,
}

/// A loan on the heap, each slice of just its length.
pub type Bytes = Loan<Vec<u8>>;

/// What a number beside the answer holds before a call: none of the answers, so a call that does not set it is found.
const UNSET: u64 = 0xa5a5_a5a5_a5a5_a5a5;

impl Loan<Guarded> {
    pub fn guarded(side: Side) -> Loan<Guarded> {
        Loan {
            record: Guarded::new(side),
            images: Guarded::new(side),
            block: Guarded::new(side),
        }
    }
}

impl<M: Memory> Loan<M> {
    pub fn lend(&mut self, bytes: &Bytes) {
        self.record.hold(&bytes.record);
        self.images.hold(&bytes.images);
        self.block.hold(&bytes.block);
    }

    /// What the calls left.
    pub fn left(&self) -> Bytes {
        Bytes {
            record: self.record.bytes().to_vec(),
            images: self.images.bytes().to_vec(),
            block: self.block.bytes().to_vec(),
        }
    }

    pub fn call(&mut self, call: Call) -> Answer {
        let mut beside = [UNSET; 6];
        let (number, answers) = self.enter(call, &mut beside);
        beside[answers..].fill(0);
        Answer { number, beside }
    }

    /// Enters the library; its answer, and how many numbers stand beside it.
    fn enter(&mut self, call: Call, beside: &mut [u64; 6]) -> (u8, usize) {
        let Loan {
            record,
            images,
            block: room,
        } = self;
        let [a, b, c, d, e, f] = beside;
        // SAFETY: pointers and lengths are those of slices that are borrowed as the header asks, mutably where it writes.
        unsafe {
            match call {
                Call::Format {
                    n,
                    block_len,
                    stripes,
                } => {
                    let (record, images) = (record.exclusive(), images.exclusive());
                    let (r, x) = (record.as_mut_ptr(), images.as_mut_ptr());
                    let number =
                        pbm_format(r, record.len(), x, images.len(), n, block_len, stripes);
                    (number, 0)
                }
                Call::Read { block } => {
                    let (record, images) = (record.shared(), images.shared());
                    let (r, x) = (record.as_ptr(), images.as_ptr());
                    let into = room.exclusive();
                    let (p, len) = (into.as_mut_ptr(), into.len());
                    (pbm_read(r, record.len(), x, images.len(), block, p, len), 0)
                }
                Call::Write { block } => {
                    let (record, images) = (record.shared(), images.exclusive());
                    let (r, x) = (record.as_ptr(), images.as_mut_ptr());
                    let data = room.shared();
                    let (p, len) = (data.as_ptr(), data.len());
                    (
                        pbm_write(r, record.len(), x, images.len(), block, p, len),
                        0,
                    )
                }
                Call::Grow { m } => {
                    let (record, images) = (record.exclusive(), images.exclusive());
                    let (r, x) = (record.as_mut_ptr(), images.as_mut_ptr());
                    (pbm_grow(r, record.len(), x, images.len(), m), 0)
                }
                Call::Advance { k } => {
                    let (record, images) = (record.exclusive(), images.exclusive());
                    let (r, x) = (record.as_mut_ptr(), images.as_mut_ptr());
                    (pbm_advance(r, record.len(), x, images.len(), k, a), 1)
                }
                Call::Out { disk } => {
                    let record = record.exclusive();
                    (pbm_out(record.as_mut_ptr(), record.len(), disk), 0)
                }
                Call::Begin { disk } => {
                    let (record, images) = (record.exclusive(), images.shared());
                    let (r, x) = (record.as_mut_ptr(), images.as_ptr());
                    (pbm_begin(r, record.len(), x, images.len(), disk), 0)
                }
                Call::Continue { k } => {
                    let (record, images) = (record.exclusive(), images.exclusive());
                    let (r, x) = (record.as_mut_ptr(), images.as_mut_ptr());
                    (pbm_continue(r, record.len(), x, images.len(), k, a), 1)
                }
                Call::Status => {
                    let record = record.shared();
                    let (r, len) = (record.as_ptr(), record.len());
                    (pbm_status(r, len, a, b, c, d, e, f), 6)
                }
                Call::Locate { block } => {
                    let record = record.shared();
                    let (r, len) = (record.as_ptr(), record.len());
                    (pbm_locate(r, len, block, a, b, c, d), 4)
                }
                Call::Owner { stripe, disk } => {
                    let record = record.shared();
                    (
                        pbm_owner(record.as_ptr(), record.len(), stripe, disk, a, b),
                        2,
                    )
                }
                Call::Sweep => {
                    let (record, images) = (record.shared(), images.shared());
                    let (r, x) = (record.as_ptr(), images.as_ptr());
                    (pbm_sweep(r, record.len(), x, images.len(), a, b, c), 3)
                }
            }
        }
    }
}

/// The two calls on scan points, which know no record and no images: each goes from one lent slice into another.
#[derive(Clone, Copy, Debug, PartialEq, Eq)]
pub enum Way {
    Pack,
    Unpack,
}

impl Way {
    /// In the order of include/pbm.h.
    pub const BOTH: [Way; 2] = [Way::Pack, Way::Unpack];

    pub fn name(self) -> &'static str {
        match self {
            Way::Pack => "points_pack",
            Way::Unpack => "points_unpack",
        }
    }

    /// What the call returns; no number stands beside it.
    pub fn call(self, from: &[u8], into: &mut [u8]) -> u8 {
        let enter = match self {
            Way::Pack => pbm_points_pack,
            Way::Unpack => pbm_points_unpack,
        };
        // SAFETY: pointers and lengths are those of slices that are borrowed as the header asks, mutably where it writes.
        unsafe { enter(from.as_ptr(), from.len(), into.as_mut_ptr(), into.len()) }
    }
}

extern "C" {
    fn pbm_format(
        record: *mut u8,
        record_len: usize,
        images: *mut u8,
        images_len: usize,
        n: u64,
        block_len: u64,
        stripes: u64,
    ) -> u8;
    fn pbm_read(
        record: *const u8,
        record_len: usize,
        images: *const u8,
        images_len: usize,
        block: u64,
        into: *mut u8,
        into_len: usize,
    ) -> u8;
    fn pbm_write(
        record: *const u8,
        record_len: usize,
        images: *mut u8,
        images_len: usize,
        block: u64,
        data: *const u8,
        data_len: usize,
    ) -> u8;
    fn pbm_grow(
        record: *mut u8,
        record_len: usize,
        images: *mut u8,
        images_len: usize,
        m: u64,
    ) -> u8;
    fn pbm_advance(
        record: *mut u8,
        record_len: usize,
        images: *mut u8,
        images_len: usize,
        k: u64,
        made: *mut u64,
    ) -> u8;
    fn pbm_out(record: *mut u8, record_len: usize, disk: u64) -> u8;
    fn pbm_begin(
        record: *mut u8,
        record_len: usize,
        images: *const u8,
        images_len: usize,
        disk: u64,
    ) -> u8;
    fn pbm_continue(
        record: *mut u8,
        record_len: usize,
        images: *mut u8,
        images_len: usize,
        k: u64,
        made: *mut u64,
    ) -> u8;
    fn pbm_status(
        record: *const u8,
        record_len: usize,
        capacity: *mut u64,
        moves: *mut u64,
        total: *mut u64,
        health: *mut u64,
        out_disk: *mut u64,
        rebuilt: *mut u64,
    ) -> u8;
    fn pbm_locate(
        record: *const u8,
        record_len: usize,
        block: u64,
        stripe: *mut u64,
        disk: *mut u64,
        parity_disk: *mut u64,
        moved: *mut u64,
    ) -> u8;
    fn pbm_owner(
        record: *const u8,
        record_len: usize,
        stripe: u64,
        disk: u64,
        role: *mut u64,
        block: *mut u64,
    ) -> u8;
    fn pbm_sweep(
        record: *const u8,
        record_len: usize,
        images: *const u8,
        images_len: usize,
        found: *mut u64,
        stripe: *mut u64,
        read: *mut u64,
    ) -> u8;
    fn pbm_points_pack(
        points: *const u8,
        points_len: usize,
        packed: *mut u8,
        packed_len: usize,
    ) -> u8;
    fn pbm_points_unpack(
        packed: *const u8,
        packed_len: usize,
        points: *mut u8,
        points_len: usize,
    ) -> u8;
}
