//! What histories have come by: how often each call gave each number, and situations that are looked for.

use crate::flat::Flat;
use crate::pbm::{Call, NAMES};
use crate::record::{tails, Health, Record};
use crate::table::{rows, LAST};
use std::collections::BTreeMap;
use std::fmt;

#[derive(Default)]
pub struct Tally {
    /// By call and by number.
    answers: [[u64; LAST as usize + 1]; NAMES.len()],
    sights: BTreeMap<String, u64>,
}

/// Situations that every large run must have come by.
const SIGHTS: &[&str] = &[
    "advance: new blocks of several zones, the growth under way",
    "advance: new blocks, the growth under way",
    "advance: no new block, the growth under way with some",
    "advance: refused 3, a disk is being rebuilt",
    "advance: the growth is complete",
    "advance: the growth is under way",
    "advance: the growth with a tail is complete",
    "advance: the growth with a tail is under way",
    "advance: the rebuild over in which it was refused",
    "begin: a disk that failed in its rebuild",
    "begin: no whole group",
    "begin: refused 10, another disk is being rebuilt",
    "begin: refused 10, another disk is out",
    "begin: refused 10, it is being rebuilt already",
    "begin: refused 10, no disk is out",
    "begin: refused 10, no such disk",
    "begin: refused 7, a disk is out",
    "begin: the growth is complete",
    "begin: the growth is under way",
    "begin: the growth is under way with new blocks",
    "begin: the growth with a tail is complete",
    "begin: the growth with a tail is under way",
    "continue: all of several stripes in one call",
    "continue: all that are left, 2^32 or more asked for",
    "continue: all that are left, as asked for",
    "continue: all that are left, fewer than asked for",
    "continue: no stripe, as asked for",
    "continue: no whole group",
    "continue: refused 10, a disk is out, and no rebuild begun",
    "continue: refused 10, no disk is out",
    "continue: refused 7, a disk is being rebuilt",
    "continue: some stripes, as asked for",
    "continue: some stripes, with some before and some behind",
    "continue: the array is whole, the disk having failed in its rebuild",
    "continue: the array is whole, the growth under way",
    "continue: the growth is complete",
    "continue: the growth is under way",
    "continue: the growth is under way with new blocks",
    "continue: the growth with a tail is complete",
    "continue: the growth with a tail is under way",
    "grow: 16 + 16 disks",
    "grow: 3 + 1 disks",
    "grow: blocks of 1 byte",
    "grow: blocks of 4,096 bytes",
    "grow: no whole group and 1 stripe",
    "grow: no whole group and a group but for 1 stripe",
    "grow: no whole group and a zone",
    "grow: no whole group and a zone but for 1 stripe",
    "grow: no whole group and n stripes",
    "grow: refused 3, a disk is being rebuilt",
    "grow: the growth is complete",
    "grow: the rebuild over in which it was refused",
    "grow: whole groups and 1 stripe",
    "grow: whole groups and a group but for 1 stripe",
    "grow: whole groups and a zone",
    "grow: whole groups and a zone but for 1 stripe",
    "grow: whole groups and n stripes",
    "locate: a block not moved, its parity moved",
    "locate: a block not moved, its parity not moved",
    "locate: a block of the disk out",
    "locate: a moved block, its parity moved",
    "locate: a moved block, its parity not moved",
    "locate: a new block, its parity moved",
    "locate: a new block, its parity not moved",
    "locate: a parity of the disk out",
    "locate: the array is lost",
    "out: another disk than the one being rebuilt",
    "out: another disk than the one out",
    "out: refused 10, it is out already",
    "out: refused 10, no such disk",
    "out: the disk being rebuilt, no stripe done",
    "out: the disk being rebuilt, some stripes done",
    "out: the growth is under way",
    "out: the growth is under way with new blocks",
    "out: the growth with a tail is under way",
    "read: a block of the disk being rebuilt, its stripe done",
    "read: a block of the disk being rebuilt, its stripe done, a new block, the growth under way",
    "read: a block of the disk being rebuilt, its stripe done, in the tail",
    "read: a block of the disk being rebuilt, its stripe done: the last one",
    "read: a block of the disk being rebuilt, its stripe not done",
    "read: a block of the disk being rebuilt, its stripe not done, a new block, the growth under way",
    "read: a block of the disk being rebuilt, its stripe not done, in the tail",
    "read: a block of the disk being rebuilt, its stripe not done: the next one",
    "read: a block of the disk being rebuilt, written before its stripe was done",
    "read: a block of the disk out",
    "read: a block of the disk that failed again, written when its stripe was done",
    "read: a block of the tail",
    "read: a block of the tail on the disk out",
    "read: a block written in its disk's rebuild, which is over",
    "read: a moved block",
    "read: a new block",
    "read: a new block between two moves of a later zone",
    "read: a new block of no whole group",
    "read: a new block of the disk out",
    "read: a new block of the disk out, the growth under way",
    "read: a new block of the tail",
    "read: a new block of the tail on the disk out",
    "read: a new block, behind its write a disk out, its rebuild and a move, the growth under way",
    "read: a new block, the growth under way",
    "read: neither block nor parity of the disk being rebuilt, its stripe done",
    "read: neither block nor parity of the disk being rebuilt, its stripe not done",
    "read: the growth is under way",
    "sweep: 16 + 16 disks",
    "sweep: 3 + 1 disks",
    "sweep: a tail that is not zero",
    "sweep: a zone finished but for a move",
    "sweep: a zone just finished, the growth under way",
    "sweep: a zone with a move made",
    "sweep: before a growth",
    "sweep: blocks of 1 byte",
    "sweep: blocks of 4,096 bytes",
    "sweep: blocks that are not zero",
    "sweep: more than 16 disks",
    "sweep: new blocks that are not zero, the growth under way",
    "sweep: no move made, the growth begun",
    "sweep: no whole group",
    "sweep: refused 3, a disk is being rebuilt",
    "sweep: refused 3, a disk is out",
    "sweep: the growth is complete",
    "sweep: the growth is under way",
    "sweep: the growth is under way with new blocks",
    "sweep: the growth with a tail is complete",
    "sweep: the growth with a tail is under way",
    "sweep: the rebuild over in which it was refused",
    "write: a block of the disk being rebuilt, its stripe done",
    "write: a block of the disk being rebuilt, its stripe done, a new block, the growth under way",
    "write: a block of the disk being rebuilt, its stripe done, in the tail",
    "write: a block of the disk being rebuilt, its stripe done: the last one",
    "write: a block of the disk being rebuilt, its stripe not done",
    "write: a block of the disk being rebuilt, its stripe not done, a new block, the growth under way",
    "write: a block of the disk being rebuilt, its stripe not done, in the tail",
    "write: a block of the disk being rebuilt, its stripe not done: the next one",
    "write: a block of the disk out",
    "write: a block of the tail",
    "write: a block of the tail on the disk out",
    "write: a moved block",
    "write: a moved parity",
    "write: a new block",
    "write: a new block between two moves of a later zone",
    "write: a new block of no whole group",
    "write: a new block of the disk out",
    "write: a new block of the disk out, the growth under way",
    "write: a new block of the tail",
    "write: a new block of the tail on the disk out",
    "write: a new block with its parity on the disk out, the growth under way",
    "write: a new block, the growth under way",
    "write: a parity of the disk being rebuilt, its stripe done",
    "write: a parity of the disk being rebuilt, its stripe done, a new block, the growth under way",
    "write: a parity of the disk being rebuilt, its stripe done, in the tail",
    "write: a parity of the disk being rebuilt, its stripe done: the last one",
    "write: a parity of the disk being rebuilt, its stripe not done",
    "write: a parity of the disk being rebuilt, its stripe not done, a new block, the growth under way",
    "write: a parity of the disk being rebuilt, its stripe not done, in the tail",
    "write: a parity of the disk being rebuilt, its stripe not done: the next one",
    "write: a parity of the disk out",
    "write: a parity of the tail on the disk out",
    "write: neither block nor parity of the disk being rebuilt, its stripe done",
    "write: neither block nor parity of the disk being rebuilt, its stripe not done",
    "write: the growth is under way",
];

impl Tally {
    pub fn count(&mut self, call: Call, number: u8) {
        self.answers[call.kind()][number as usize] += 1;
    }

    /// Notes what is remarkable about an accepted call, by the numbers before it and after it.
    pub fn note(&mut self, call: Call, before: &Record, flat: &Flat) {
        let numbers = &flat.numbers;
        let (is_grown, shape) = (numbers.is_grown(), (numbers.n, numbers.m));
        let under_way = numbers.moves > 0 && !is_grown;
        let has_new = numbers.capacity() > numbers.old_capacity();
        // of whole groups and a tail
        let has_tail = numbers.total() > 0 && numbers.tail() > 0;
        self.sights(
            call,
            &[
                (is_grown, "the growth is complete"),
                (under_way, "the growth is under way"),
                (
                    under_way && has_new,
                    "the growth is under way with new blocks",
                ),
                (is_grown && has_tail, "the growth with a tail is complete"),
                (under_way && has_tail, "the growth with a tail is under way"),
                (is_grown && numbers.moves == 0, "no whole group"),
                (shape == (3, 1), "3 + 1 disks"),
                (shape == (16, 16), "16 + 16 disks"),
                (numbers.block_len == 1, "blocks of 1 byte"),
                (numbers.block_len == 4096, "blocks of 4,096 bytes"),
            ],
        );
        match call {
            Call::Grow { .. } => self.note_tail(call, numbers),
            Call::Advance { .. } if under_way => self.note_new_blocks(call, before, numbers),
            Call::Out { disk } => self.note_out(call, disk, before.health),
            Call::Continue { k } => self.note_rebuild(call, k, before, numbers),
            Call::Read { block } | Call::Write { block } => {
                self.note_block(call, block, flat);
                self.note_rebuilding(call, block, flat);
            }
            Call::Locate { block } => self.note_located(call, block, flat),
            Call::Sweep => self.note_swept(call, flat),
            _ => {}
        }
    }

    /// Notes what is remarkable about a refused one.
    pub fn note_refused(&mut self, call: Call, number: u8, numbers: &Record) {
        let words = match (call, number, numbers.health) {
            (
                Call::Grow { .. } | Call::Advance { .. } | Call::Sweep,
                3,
                Health::Rebuilding { .. },
            ) => "a disk is being rebuilt",
            (Call::Sweep, 3, _) => "a disk is out",
            (Call::Begin { .. }, 7, Health::Out(_)) => "a disk is out",
            (Call::Continue { .. }, 7, Health::Rebuilding { .. }) => "a disk is being rebuilt",
            (Call::Out { disk } | Call::Begin { disk }, 10, _) if disk >= numbers.disks() => {
                "no such disk"
            }
            (Call::Out { .. }, 10, _) => "it is out already",
            (Call::Begin { .. } | Call::Continue { .. }, 10, Health::Whole) => "no disk is out",
            (Call::Begin { .. }, 10, Health::Out(_)) => "another disk is out",
            (Call::Begin { disk }, 10, Health::Rebuilding { disk: same, .. }) if same == disk => {
                "it is being rebuilt already"
            }
            (Call::Begin { .. }, 10, _) => "another disk is being rebuilt",
            (Call::Continue { .. }, 10, _) => "a disk is out, and no rebuild begun",
            _ => return,
        };
        self.sights(call, &[(true, &format!("refused {number}, {words}"))]);
    }

    /// By the health before.
    fn note_out(&mut self, call: Call, disk: u64, before: Health) {
        let words = match before {
            Health::Out(_) => "another disk than the one out",
            Health::Rebuilding { disk: first, .. } if first != disk => {
                "another disk than the one being rebuilt"
            }
            Health::Rebuilding { done: 0, .. } => "the disk being rebuilt, no stripe done",
            Health::Rebuilding { .. } => "the disk being rebuilt, some stripes done",
            Health::Whole | Health::Lost => return,
        };
        self.sights(call, &[(true, words)]);
    }

    /// By a continue for k stripes.
    fn note_rebuild(&mut self, call: Call, k: u64, before: &Record, numbers: &Record) {
        let [_, _, done] = before.health.numbers();
        let left = before.stripes - done;
        let under_way = numbers.moves > 0 && !numbers.is_grown();
        self.sights(
            call,
            &[
                (k == 0, "no stripe, as asked for"),
                (0 < k && k < left, "some stripes, as asked for"),
                (k == left, "all that are left, as asked for"),
                (k > left, "all that are left, fewer than asked for"),
                (k >= 1 << 32, "all that are left, 2^32 or more asked for"),
                (
                    left > 1 && left == before.stripes && k >= left,
                    "all of several stripes in one call",
                ),
                (
                    done > 0 && 0 < k && k < left,
                    "some stripes, with some before and some behind",
                ),
                (
                    k >= left && under_way,
                    "the array is whole, the growth under way",
                ),
            ],
        );
    }

    fn note_tail(&mut self, call: Call, numbers: &Record) {
        let groups = match numbers.total() {
            0 => "no whole group",
            _ => "whole groups",
        };
        let kinds = [
            "1 stripe",
            "n stripes",
            "a zone but for 1 stripe",
            "a zone",
            "a group but for 1 stripe",
        ];
        for (len, kind) in tails(numbers.n, numbers.m).into_iter().zip(kinds) {
            let words = format!("{groups} and {kind}");
            self.sights(call, &[(numbers.tail() == len, words.as_str())]);
        }
    }

    /// By an advance that does not end the growth.
    fn note_new_blocks(&mut self, call: Call, before: &Record, numbers: &Record) {
        let came = numbers.capacity() - before.capacity();
        let moved = numbers.moves > before.moves;
        self.sights(
            call,
            &[
                (came > 0, "new blocks, the growth under way"),
                (
                    came > numbers.disks() * numbers.m,
                    "new blocks of several zones, the growth under way",
                ),
                (
                    came == 0 && moved && before.capacity() > before.old_capacity(),
                    "no new block, the growth under way with some",
                ),
            ],
        );
    }

    fn note_block(&mut self, call: Call, block: u64, flat: &Flat) {
        let numbers = &flat.numbers;
        let (stripe, disk) = flat.layout.place(block);
        let parity = flat.layout.parity(stripe);
        let is_new = block >= numbers.old_capacity();
        let (is_early, in_tail) = (is_early(numbers, block), is_in_tail(numbers, stripe));
        let out = |disk| numbers.health == Health::Out(disk);
        self.sights(
            call,
            &[
                (is_new, "a new block"),
                (is_early, "a new block, the growth under way"),
                (
                    is_early && numbers.moves % (numbers.n * numbers.m) != 0,
                    "a new block between two moves of a later zone",
                ),
                (flat.layout.is_moved(block), "a moved block"),
                (out(disk), "a block of the disk out"),
                (is_new && out(disk), "a new block of the disk out"),
                (
                    is_early && out(disk),
                    "a new block of the disk out, the growth under way",
                ),
                (
                    is_early && out(parity),
                    "a new block with its parity on the disk out, the growth under way",
                ),
                (
                    is_new && numbers.total() == 0,
                    "a new block of no whole group",
                ),
                (in_tail, "a block of the tail"),
                (in_tail && is_new, "a new block of the tail"),
                (in_tail && out(disk), "a block of the tail on the disk out"),
                (
                    in_tail && is_new && out(disk),
                    "a new block of the tail on the disk out",
                ),
                (parity >= numbers.n, "a moved parity"),
                (out(parity), "a parity of the disk out"),
                (
                    in_tail && out(parity),
                    "a parity of the tail on the disk out",
                ),
            ],
        );
    }

    /// By a block that is read or written while a disk is being rebuilt: which of its stripe's places is on that disk, and whether
    /// the stripe is done.
    fn note_rebuilding(&mut self, call: Call, block: u64, flat: &Flat) {
        let numbers = &flat.numbers;
        let Health::Rebuilding { disk, done } = numbers.health else {
            return;
        };
        let (stripe, on) = flat.layout.place(block);
        let what = if disk == on {
            "a block"
        } else if disk == flat.layout.parity(stripe) {
            "a parity"
        } else {
            "neither block nor parity"
        };
        let side = match stripe < done {
            true => "its stripe done",
            false => "its stripe not done",
        };
        for (seen, more) in [
            (true, ""),
            (stripe + 1 == done, ": the last one"),
            (stripe == done, ": the next one"),
            (
                is_early(numbers, block),
                ", a new block, the growth under way",
            ),
            (is_in_tail(numbers, stripe), ", in the tail"),
        ] {
            let words = format!("{what} of the disk being rebuilt, {side}{more}");
            self.sights(call, &[(seen, &words)]);
        }
    }

    /// By a block that is located: which of it and its parity a move has carried, and what is out.
    fn note_located(&mut self, call: Call, block: u64, flat: &Flat) {
        let Record { n, health, .. } = flat.numbers;
        let (stripe, disk) = flat.layout.place(block);
        let parity = flat.layout.parity(stripe);
        let what = if block >= flat.numbers.old_capacity() {
            "a new block"
        } else if flat.layout.is_moved(block) {
            "a moved block"
        } else {
            "a block not moved"
        };
        let beside = match parity >= n {
            true => "its parity moved",
            false => "its parity not moved",
        };
        self.sights(
            call,
            &[
                (true, &format!("{what}, {beside}")),
                (health == Health::Out(disk), "a block of the disk out"),
                (health == Health::Out(parity), "a parity of the disk out"),
                (health == Health::Lost, "the array is lost"),
            ],
        );
    }

    /// By a sweep: how far the growth is, and what is there to be summed.
    fn note_swept(&mut self, call: Call, flat: &Flat) {
        let numbers = &flat.numbers;
        let Record { n, m, moves, .. } = *numbers;
        let is_growing = m > 0 && !numbers.is_grown();
        let made_of_zone = moves % (n * m).max(1);
        let is_written = |block: u64| flat.block(block).iter().any(|&byte| byte != 0);
        let is_tail = |&block: &u64| is_in_tail(numbers, flat.layout.place(block).0);
        let (old, all) = (numbers.old_capacity(), flat.capacity());
        self.sights(
            call,
            &[
                (m == 0, "before a growth"),
                (is_growing && moves == 0, "no move made, the growth begun"),
                (is_growing && made_of_zone == 1, "a zone with a move made"),
                (
                    is_growing && made_of_zone + 1 == n * m,
                    "a zone finished but for a move",
                ),
                (
                    is_growing && moves > 0 && made_of_zone == 0,
                    "a zone just finished, the growth under way",
                ),
                (numbers.disks() > 16, "more than 16 disks"),
                ((0..all).any(is_written), "blocks that are not zero"),
                (
                    is_growing && (old..all).any(is_written),
                    "new blocks that are not zero, the growth under way",
                ),
                (
                    (0..all).filter(is_tail).any(is_written),
                    "a tail that is not zero",
                ),
            ],
        );
    }

    /// Counts what is seen of a call.
    pub fn sights(&mut self, call: Call, seen: &[(bool, &str)]) {
        for (_, words) in seen.iter().filter(|(seen, _)| *seen) {
            let sight = format!("{}: {words}", call.name());
            *self.sights.entry(sight).or_default() += 1;
        }
    }

    /// Every call was accepted, and refused by each of its numbers and no other; and all `SIGHTS` were seen.
    pub fn assert_complete(&self) {
        for (name, counts) in NAMES.iter().zip(&self.answers) {
            for (number, &count) in counts.iter().enumerate() {
                let can = number == 0 || rows(name).contains(&(number as u8));
                assert_eq!(count > 0, can, "{name} answered {number} {count} times");
            }
        }
        for sight in SIGHTS {
            assert!(self.sights.contains_key(*sight), "never seen: {sight}");
        }
    }
}

/// A new block of a finished zone, while moves are left.
fn is_early(numbers: &Record, block: u64) -> bool {
    block >= numbers.old_capacity() && !numbers.is_grown()
}

/// After whole groups.
fn is_in_tail(numbers: &Record, stripe: u64) -> bool {
    numbers.total() > 0 && stripe >= numbers.stripes - numbers.tail()
}

impl fmt::Display for Tally {
    fn fmt(&self, f: &mut fmt::Formatter) -> fmt::Result {
        writeln!(f, "answers:  done, then refusals 1 to {LAST}")?;
        for (name, counts) in NAMES.iter().zip(&self.answers) {
            write!(f, "{name:8}")?;
            for count in counts {
                write!(f, " {count:6}")?;
            }
            writeln!(f)?;
        }
        for sight in SIGHTS {
            writeln!(f, "{:6} {sight}", self.sights.get(*sight).unwrap_or(&0))?;
        }
        Ok(())
    }
}
