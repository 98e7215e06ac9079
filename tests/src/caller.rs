//! A caller that errs: draws shapes, calls and lengths, mostly right ones, at random.

use crate::flat::Flat;
use crate::layout::Owner;
use crate::pbm::{Bytes, Call, NAMES};
use crate::random::Random;
use crate::record::{tails, Health, Record, RECORD_LEN};

pub struct Caller {
    pub random: Random,
    /// The new disks that groups and tail were drawn for.
    planned: u64,
    /// Numbers that calls were given before.
    old: Vec<u64>,
    /// The blocks of the last writes.
    written: [u64; 24],
}

/// How often each call of `NAMES` is drawn: format, read, write, grow, advance, out, begin, continue, status, locate, owner, sweep.
type Weights = [u64; NAMES.len()];
const HOME: Weights = [1, 15, 20, 12, 4, 4, 1, 1, 2, 5, 5, 3];
const GROWING: Weights = [1, 20, 25, 2, 25, 4, 1, 1, 2, 6, 6, 8];
const GROWN: Weights = [3, 30, 30, 2, 3, 5, 1, 1, 2, 8, 8, 5];
const DEGRADED: Weights = [1, 30, 30, 3, 4, 3, 20, 1, 2, 6, 6, 3];
const REBUILDING: Weights = [1, 30, 30, 3, 4, 4, 2, 16, 2, 6, 6, 3];
const LOST: Weights = [12, 4, 4, 4, 4, 4, 2, 2, 4, 4, 4, 4];

/// The images of most shapes, grown, have at most so many bytes.
const SMALL: u64 = 1 << 15;
/// Above this no images are lent.
const LARGE: u64 = 1 << 20;

impl Caller {
    pub fn new(random: Random) -> Caller {
        Caller {
            random,
            planned: 1,
            old: vec![0],
            written: [0; 24],
        }
    }

    /// A format that is accepted, if the images have the length: no whole group or some, and no tail or one of any kind.
    pub fn good_format(&mut self) -> Call {
        let random = &mut self.random;
        let large = random.one_in(20);
        let (n, m) = match random.below(16) {
            _ if large => *random.pick(&[(3, 1), (3, 2), (4, 1)]),
            0 => (*random.pick(&[3, 16]), *random.pick(&[1, 16])),
            1..=7 => (3 + random.below(3), 1 + random.below(3)),
            _ => (3 + random.below(14), 1 + random.below(16)),
        };
        let group = n * (n + m);
        let groups = match random.below(4) {
            0 => 0,
            _ if large => 1,
            _ => 1 + random.below(1 + 64 / group),
        };
        let stripes = (groups * group + any_tail(random, n, m)).max(1);
        let longest = match large {
            true => 4096,
            false => *random.pick(&[4, 16, 64, SMALL / ((n + m) * stripes)]),
        }
        .clamp(1, 4096);
        let block_len = match random.one_in(4) {
            true => longest,
            false => 1 + random.below(longest),
        };
        self.planned = m;
        Call::Format {
            n,
            block_len,
            stripes,
        }
    }

    pub fn call(&mut self, flat: &Flat) -> Call {
        let numbers = flat.numbers;
        let call = match self.weighted(weights(&numbers)) {
            0 => self.format(),
            1 => Call::Read {
                block: self.block_to_read(flat),
            },
            2 => Call::Write {
                block: self.block(flat),
            },
            3 => Call::Grow {
                m: self.new_disks(),
            },
            4 => Call::Advance {
                k: self.budget(&numbers),
            },
            5 => Call::Out {
                disk: self.disk_to_lose(&numbers),
            },
            6 => Call::Begin {
                disk: self.disk_to_rebuild(&numbers),
            },
            7 => Call::Continue {
                k: self.stripes_to_rebuild(&numbers),
            },
            8 => Call::Status,
            9 => Call::Locate {
                block: self.block(flat),
            },
            10 => Call::Owner {
                stripe: self.below_or_odd(numbers.stripes),
                disk: self.disk(&numbers),
            },
            _ => Call::Sweep,
        };
        self.remember(call);
        call
    }

    /// What the call is lent: record and images as the calls before left them, where document 01 does not say otherwise, at
    /// their lengths or, rarely, at others.
    pub fn lend(&mut self, call: Call, numbers: &Record, images: &[u8]) -> Bytes {
        let record_len = self.len(RECORD_LEN as u64, &[]);
        let mut lent = Bytes {
            record: self.stretched(&numbers.bytes(), record_len),
            images: Vec::new(),
            block: Vec::new(),
        };
        if call.takes_images() {
            let len = self.images_len(call, numbers, images.len());
            let any = matches!(call, Call::Format { .. }) && self.random.one_in(2);
            let start = if any { &[] } else { images };
            lent.images = self.stretched(start, len);
        }
        if call.takes_block() {
            let len = self.len(numbers.block_len, &[self.planned]);
            lent.block = self.random.bytes(len);
        }
        lent
    }

    fn weighted(&mut self, weights: &Weights) -> usize {
        let mut draw = self.random.below(weights.iter().sum());
        weights
            .iter()
            .position(|&w| {
                let hit = draw < w;
                draw = draw.wrapping_sub(w);
                hit
            })
            .unwrap()
    }

    fn format(&mut self) -> Call {
        let planned = self.planned;
        let good = self.good_format();
        let Call::Format {
            mut n,
            mut block_len,
            mut stripes,
        } = good
        else {
            unreachable!()
        };
        match self.random.below(8) {
            0 => n = self.odd(17),
            1 => block_len = self.odd(4097),
            2 => stripes = self.odd(1_048_577),
            _ => return good,
        }
        self.planned = planned;
        Call::Format {
            n,
            block_len,
            stripes,
        }
    }

    fn block(&mut self, flat: &Flat) -> u64 {
        match flat.numbers.health {
            Health::Rebuilding { .. } if self.random.one_in(3) => self.block_at_the_count(flat),
            _ => self.any_block(flat),
        }
    }

    /// A block of the stripe done last or of the next one, mostly that of the disk being rebuilt.
    fn block_at_the_count(&mut self, flat: &Flat) -> u64 {
        let [_, disk, done] = flat.numbers.health.numbers();
        let stripe = (done + self.random.below(2)).saturating_sub(1);
        let disk = match self.random.one_in(4) {
            true => self.random.below(flat.numbers.disks()),
            false => disk,
        };
        match flat.layout.owner(stripe, disk) {
            Owner::Data(block) => block,
            // one whose parity stands there, or that has no more to do with the disk than its stripe
            Owner::Parity | Owner::Blank => {
                let in_stripe = flat.numbers.n - 1;
                stripe * in_stripe + self.random.below(in_stripe)
            }
        }
    }

    fn any_block(&mut self, flat: &Flat) -> u64 {
        let Record { n, m, stripes, .. } = flat.numbers;
        let (capacity, old_capacity) = (flat.capacity(), flat.numbers.old_capacity());
        match self.random.below(16) {
            0..=3 if capacity > old_capacity => {
                old_capacity + self.random.below(capacity - old_capacity)
            }
            // one of the last old or of the last new ones: of the tail, if there is one, or of the zone finished last
            4 | 5 => {
                let end = *self.random.pick(&[old_capacity, capacity]);
                end - 1 - self.random.below(end.min(2 * n))
            }
            0..=12 => self.random.below(capacity),
            13 => capacity + self.random.below(stripes * m + 1),
            _ => self.odd(capacity),
        }
    }

    fn block_to_read(&mut self, flat: &Flat) -> u64 {
        match self.random.one_in(3) {
            true => *self.random.pick(&self.written),
            false => self.block(flat),
        }
    }

    fn new_disks(&mut self) -> u64 {
        match self.random.below(8) {
            0 => self.odd(17),
            1 => self.random.below(18),
            _ => self.planned,
        }
    }

    fn budget(&mut self, numbers: &Record) -> u64 {
        let total = numbers.total();
        match self.random.below(12) {
            0..=2 => self.random.below(4),
            3..=5 => self.random.below(2 * numbers.n * numbers.disks()),
            6..=8 => self.random.below(total / 4 + 2),
            // to the end of the zone, a move less or a move more
            9 | 10 => left_of_zone(numbers) - 1 + self.random.below(3),
            _ => self.odd(total - numbers.moves),
        }
    }

    fn disk(&mut self, numbers: &Record) -> u64 {
        self.below_or_odd(numbers.disks())
    }

    /// Of one that is being rebuilt mostly the same disk again.
    fn disk_to_lose(&mut self, numbers: &Record) -> u64 {
        match numbers.health {
            Health::Rebuilding { disk, .. } if !self.random.one_in(4) => disk,
            _ => self.disk(numbers),
        }
    }

    fn disk_to_rebuild(&mut self, numbers: &Record) -> u64 {
        match numbers.health {
            Health::Out(disk) if !self.random.one_in(5) => disk,
            Health::Rebuilding { disk, .. } if self.random.one_in(2) => disk,
            _ => self.disk(numbers),
        }
    }

    fn stripes_to_rebuild(&mut self, numbers: &Record) -> u64 {
        let [_, _, done] = numbers.health.numbers();
        let left = numbers.stripes - done;
        match self.random.below(12) {
            0..=2 => self.random.below(4),
            3 | 4 => self.random.below(numbers.stripes / 4 + 2),
            5 | 6 => self.random.below(left),
            // up to one of the last stripes, where a tail is, or to the end
            7..=9 => left - self.random.below(left.min(2 * numbers.n)),
            _ => self.odd(left),
        }
    }

    fn below_or_odd(&mut self, limit: u64) -> u64 {
        match self.random.one_in(5) {
            true => self.odd(limit),
            false => self.random.below(limit),
        }
    }

    /// A number next to the limit, one that is below it once its high bits are lost, one that a call was given before, or any.
    fn odd(&mut self, limit: u64) -> u64 {
        let below = self.random.below(limit.max(1));
        match self.random.below(10) {
            0 => limit,
            1 => limit + 1,
            2 => limit.wrapping_sub(1),
            3 => below + (1 << 8),
            4 => below + (1 << 16),
            5 => below + (1 << 32),
            6 => u64::MAX,
            7 => u64::MAX - below,
            8 => *self.random.pick(&self.old),
            _ => self.random.word(),
        }
    }

    fn remember(&mut self, call: Call) {
        if let Call::Write { block } = call {
            self.written.rotate_right(1);
            self.written[0] = block;
        }
        match call {
            Call::Read { block } | Call::Write { block } | Call::Locate { block } => {
                self.old.push(block)
            }
            Call::Owner { stripe, disk } => self.old.extend([stripe, disk]),
            _ => {}
        }
    }

    fn images_len(&mut self, call: Call, numbers: &Record, left: usize) -> usize {
        let disk_len = numbers.stripes * numbers.block_len;
        let right = match call {
            Call::Format {
                n,
                block_len,
                stripes,
            } => [n, block_len, stripes]
                .iter()
                .try_fold(1u64, |p, &x| p.checked_mul(x))
                .filter(|&len| len <= LARGE)
                .unwrap_or(left as u64),
            Call::Grow { m } => (numbers.n + m.min(32)) * disk_len,
            _ => left as u64,
        };
        let others = [
            numbers.n * disk_len,
            (numbers.n + self.planned) * disk_len,
            right.saturating_sub(disk_len),
            right + disk_len,
        ];
        self.len(right, &others)
    }

    /// The right length or, rarely, another.
    fn len(&mut self, right: u64, others: &[u64]) -> usize {
        let wrong = [0, right.saturating_sub(1), right + 1, right / 2, right * 2];
        let len = match self.random.one_in(40) {
            true => *self.random.pick(&[&wrong[..], others].concat()),
            false => right,
        };
        len as usize
    }

    /// The bytes cut to the length, or with any bytes after them.
    fn stretched(&mut self, bytes: &[u8], len: usize) -> Vec<u8> {
        let mut stretched = bytes[..bytes.len().min(len)].to_vec();
        let more = self.random.bytes(len - stretched.len());
        stretched.extend(more);
        stretched
    }
}

/// None, one of some kind, or any.
pub fn any_tail(random: &mut Random, n: u64, m: u64) -> u64 {
    match random.below(8) {
        0..=2 => 0,
        3 => random.below(n * (n + m)),
        _ => *random.pick(&tails(n, m)),
    }
}

/// The moves from here to the end of the zone, at least 1; before a growth, 1.
fn left_of_zone(numbers: &Record) -> u64 {
    let zone = (numbers.n * numbers.m).max(1);
    zone - numbers.moves % zone
}

fn weights(numbers: &Record) -> &'static Weights {
    match numbers.health {
        Health::Lost => &LOST,
        Health::Out(_) => &DEGRADED,
        Health::Rebuilding { .. } => &REBUILDING,
        Health::Whole if numbers.m == 0 => &HOME,
        Health::Whole if numbers.is_grown() => &GROWN,
        Health::Whole => &GROWING,
    }
}
