//! The record of document 01, with requests (a), (b) and (d) of document 02: its fields, its bytes, when it is good, and the
//! numbers that follow from it.

use std::ops::Range;

/// How many bytes it has.
pub const RECORD_LEN: usize = 20;

/// The bytes of each field, the least one first.
pub mod at {
    use std::ops::Range;

    pub const N: Range<usize> = 0..1;
    pub const M: Range<usize> = 1..2;
    pub const HEALTH: Range<usize> = 2..3;
    pub const OUT: Range<usize> = 3..4;
    pub const BLOCK_LEN: Range<usize> = 4..6;
    /// No field: zero in a good record.
    pub const ZERO: Range<usize> = 6..8;
    pub const STRIPES: Range<usize> = 8..12;
    pub const MOVES: Range<usize> = 12..16;
    pub const REBUILT: Range<usize> = 16..20;

    /// All of them, in their order.
    pub const ALL: [Range<usize>; 9] =
        [N, M, HEALTH, OUT, BLOCK_LEN, ZERO, STRIPES, MOVES, REBUILT];
}

pub fn field(bytes: &[u8], at: Range<usize>) -> u64 {
    let from_the_last = bytes[at].iter().rev();
    from_the_last.fold(0, |value, &byte| value << 8 | u64::from(byte))
}

/// What does not fit the field is lost.
pub fn set_field(bytes: &mut [u8], at: Range<usize>, value: u64) {
    let value = &value.to_le_bytes()[..at.len()];
    bytes[at].copy_from_slice(value);
}

#[derive(Clone, Copy, Debug, PartialEq, Eq)]
pub enum Health {
    Whole,
    Out(u64),
    Lost,
    /// A disk, and how many of its stripes are done.
    Rebuilding {
        disk: u64,
        done: u64,
    },
}

impl Health {
    /// Its number, the disk that is out or being rebuilt, and the stripes of it that are done; 0 where there is none.
    pub fn numbers(self) -> [u64; 3] {
        match self {
            Health::Whole => [0, 0, 0],
            Health::Out(disk) => [1, disk, 0],
            Health::Lost => [2, 0, 0],
            Health::Rebuilding { disk, done } => [3, disk, done],
        }
    }

    /// Whether the disk counts as out in this stripe. "Stripes below the count use the disk as in service, others count it out"
    pub fn is_out(self, stripe: u64, disk: u64) -> bool {
        match self {
            Health::Out(out) => out == disk,
            Health::Rebuilding { disk: out, done } => out == disk && stripe >= done,
            Health::Whole | Health::Lost => false,
        }
    }
}

#[derive(Clone, Copy, Debug, PartialEq, Eq)]
pub struct Record {
    pub n: u64,
    pub m: u64,
    pub health: Health,
    pub block_len: u64,
    pub stripes: u64,
    pub moves: u64,
}

/// The array of document 01's bench, with blocks of 4 bytes.
pub const BENCH: Record = Record {
    n: 3,
    m: 0,
    health: Health::Whole,
    block_len: 4,
    stripes: 15,
    moves: 0,
};

/// With 2 disks more, and 5 of the 18 moves made.
pub const GROWING: Record = Record {
    m: 2,
    moves: 5,
    ..BENCH
};

/// With 7 of them made: zone 0 is finished, so that its blanks are blocks 30 to 39, and zone 1 is begun.
pub const ZONE_FINISHED: Record = Record {
    moves: 7,
    ..GROWING
};

impl Record {
    /// What format leaves.
    pub fn new(n: u64, block_len: u64, stripes: u64) -> Record {
        Record {
            n,
            m: 0,
            health: Health::Whole,
            block_len,
            stripes,
            moves: 0,
        }
    }

    pub fn bytes(&self) -> [u8; RECORD_LEN] {
        let [health, out, rebuilt] = self.health.numbers();
        let mut bytes = [0; RECORD_LEN];
        for (at, value) in [
            (at::N, self.n),
            (at::M, self.m),
            (at::HEALTH, health),
            (at::OUT, out),
            (at::BLOCK_LEN, self.block_len),
            (at::STRIPES, self.stripes),
            (at::MOVES, self.moves),
            (at::REBUILT, rebuilt),
        ] {
            set_field(&mut bytes, at, value);
        }
        bytes
    }

    /// The fields as the bytes have them, good or not; a health above 3 is read as lost.
    pub fn of(bytes: [u8; RECORD_LEN]) -> Record {
        let field = |at| field(&bytes, at);
        Record {
            n: field(at::N),
            m: field(at::M),
            health: match field(at::HEALTH) {
                0 => Health::Whole,
                1 => Health::Out(field(at::OUT)),
                3 => Health::Rebuilding {
                    disk: field(at::OUT),
                    done: field(at::REBUILT),
                },
                _ => Health::Lost,
            },
            block_len: field(at::BLOCK_LEN),
            stripes: field(at::STRIPES),
            moves: field(at::MOVES),
        }
    }

    /// N
    pub fn disks(&self) -> u64 {
        self.n + self.m
    }

    /// The stripes of a group.
    pub fn group(&self) -> u64 {
        self.n * (self.n + self.m)
    }

    /// The stripes after the last whole group.
    pub fn tail(&self) -> u64 {
        self.stripes % self.group()
    }

    /// "The total becomes (T div (n × (n + m))) × n × n × m."
    pub fn total(&self) -> u64 {
        self.stripes / self.group() * self.n * self.n * self.m
    }

    pub fn is_grown(&self) -> bool {
        self.m > 0 && self.moves == self.total()
    }

    /// The blocks before growth, which keep their numbers.
    pub fn old_capacity(&self) -> u64 {
        self.stripes * (self.n - 1)
    }

    /// "T × (n − 1) + F × (n + m) × m with F finished zones, and the full figure once t is the total". A zone has n × m
    /// moves.
    pub fn capacity(&self) -> u64 {
        let Record { n, m, .. } = *self;
        match m {
            0 => self.old_capacity(),
            _ if self.is_grown() => self.stripes * (n + m - 1),
            _ => self.old_capacity() + self.moves / (n * m) * (n + m) * m,
        }
    }

    pub fn images_len(&self) -> u64 {
        self.disks() * self.stripes * self.block_len
    }
}

/// Tails of all kinds: the least, one with a parity on each old disk, a zone but for one stripe, a zone, a group but for one stripe.
pub fn tails(n: u64, m: u64) -> [u64; 5] {
    [1, n, n + m - 1, n + m, n * (n + m) - 1]
}

/// "A record is good exactly if ..", read off its bytes.
pub fn good(bytes: [u8; RECORD_LEN]) -> bool {
    let [health, out, zero, rebuilt] =
        [at::HEALTH, at::OUT, at::ZERO, at::REBUILT].map(|at| field(&bytes, at));
    let record = Record::of(bytes);
    let Record {
        n,
        m,
        block_len,
        stripes,
        moves,
        ..
    } = record;
    let limits = (3..=16).contains(&n)
        && m <= 16
        && health <= 3
        && (1..=4096).contains(&block_len)
        && zero == 0
        && (1..=1_048_576).contains(&stripes);
    let out_good = match health {
        1 | 3 => out < n + m,
        _ => out == 0,
    };
    let rebuilt_good = match health {
        3 => rebuilt < stripes,
        _ => rebuilt == 0,
    };
    limits && out_good && rebuilt_good && moves <= record.total() && (m > 0 || moves == 0)
}
