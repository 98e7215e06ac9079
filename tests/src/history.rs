//! A random history: any calls with any arguments on one array, held at every call to the flat list, and byte for byte to the
//! images that it stands for.

use crate::caller::Caller;
use crate::flat::Flat;
use crate::images;
use crate::memory::Memory;
use crate::outage::Outage;
use crate::pbm::{Answer, Bytes, Call, Loan};
use crate::random::Random;
use crate::record::{Health, Record, RECORD_LEN};
use crate::table::Lent;
use crate::tally::Tally;
use std::collections::BTreeMap;

/// Calls in a history, the format that opens it included.
const CALLS: u64 = 200;

/// Runs the history of this seed, in this memory.
pub fn run<M: Memory>(seed: u64, loan: Loan<M>, tally: &mut Tally) {
    let _telling = Telling(seed);
    let mut history = History::open(Random::seeded(seed), loan, tally);
    for _ in 1..CALLS {
        history.step();
    }
    history.read_all();
}

/// Tells how to repeat the history if it ends by a failed assertion.
struct Telling(u64);

impl Drop for Telling {
    fn drop(&mut self) {
        if std::thread::panicking() {
            eprintln!("to repeat this history: SEED={} HISTORIES=1", self.0);
        }
    }
}

struct History<'a, M> {
    caller: Caller,
    loan: Loan<M>,
    flat: Flat,
    /// As the calls before left them.
    images: Vec<u8>,
    /// What the images are to hold, but for `loose`.
    wanted: Vec<u8>,
    /// Disks reported out, each from the stripe on that is not rebuilt since; none after a format.
    loose: BTreeMap<u64, u64>,
    /// The new blocks that were written while the growth was under way, and how many calls of `MEANWHILE` have come since.
    written: BTreeMap<u64, usize>,
    outage: Outage,
    tally: &'a mut Tally,
}

/// What comes, in this order, between a new block's write and the read that is looked for.
const MEANWHILE: [&str; 4] = ["out", "begin", "continue", "advance"];

impl<'a, M: Memory> History<'a, M> {
    /// "The list opens with an accepted format, lent any record and images."
    fn open(random: Random, loan: Loan<M>, tally: &'a mut Tally) -> History<'a, M> {
        let mut caller = Caller::new(random);
        let call = caller.good_format();
        let Call::Format {
            n,
            block_len,
            stripes,
        } = call
        else {
            unreachable!()
        };
        let lent = Bytes {
            record: caller.random.bytes(RECORD_LEN),
            images: caller.random.bytes((n * block_len * stripes) as usize),
            block: Vec::new(),
        };
        let mut history = History {
            caller,
            loan,
            flat: Flat::format(n, block_len, stripes),
            images: Vec::new(),
            wanted: Vec::new(),
            loose: BTreeMap::new(),
            written: BTreeMap::new(),
            outage: Outage::default(),
            tally,
        };
        let answer = history.perform(call, &lent);
        assert_eq!(answer.number, 0, "the format that opens the list");
        history
    }

    fn step(&mut self) {
        self.scribble();
        let call = self.caller.call(&self.flat);
        let lent = self.caller.lend(call, &self.flat.numbers, &self.images);
        self.perform(call, &lent);
    }

    /// "disk d may hold any bytes, new ones before each call", "only in stripes not yet rebuilt"
    fn scribble(&mut self) {
        let numbers = &self.flat.numbers;
        for (&disk, &first) in &self.loose {
            let range = images::part(numbers, disk, first..numbers.stripes);
            self.caller.random.fill(&mut self.images[range]);
        }
    }

    /// Makes one call and looks at all that it answers and leaves.
    fn perform(&mut self, call: Call, lent: &Bytes) -> Answer {
        let parities = self.parity_values(call);
        self.loan.lend(lent);
        let answer = self.loan.call(call);

        let lengths = Lent {
            record_len: lent.record.len(),
            good: true,
            images_len: lent.images.len(),
            block_len: lent.block.len(),
        };
        let mut block = lent.block.clone();
        let before = self.flat.numbers;
        let wanted = self.flat.step(call, &lengths, &mut block);
        assert_eq!(
            answer, wanted,
            "{call:?}, lent {lengths:?}, on {:?}",
            self.flat.numbers
        );
        assert_eq!(self.loan.block.bytes(), block, "the block of {call:?}");
        let record = match answer.number {
            0 => self.flat.numbers.bytes().to_vec(),
            _ => lent.record.clone(),
        };
        assert_eq!(self.loan.record.bytes(), record, "the record of {call:?}");

        self.tally.count(call, answer.number);
        if answer.number == 0 {
            self.tally.note(call, &before, &self.flat);
            self.follow(call, &before);
            self.outage.accepted(call, &before, &self.flat, self.tally);
            self.accepted(call, &answer, lent);
            assert!(
                parities == self.parity_values(call),
                "parity values over {call:?}"
            );
        } else {
            let unchanged = self.loan.images.bytes() == lent.images;
            assert!(unchanged, "the images of {call:?}, which was refused");
            self.tally.note_refused(call, answer.number, &before);
            self.outage.refused(call, answer.number, &before);
        }
        answer
    }

    fn accepted(&mut self, call: Call, answer: &Answer, lent: &Bytes) {
        match call {
            Call::Out { disk } => {
                self.loose.insert(disk, 0);
            }
            Call::Continue { .. } => self.rebuilt(answer.beside[0]),
            Call::Format { .. } => self.loose.clear(),
            _ => {}
        }
        match call {
            Call::Format { .. } | Call::Grow { .. } | Call::Advance { .. } => {
                self.wanted = images::of(&self.flat)
            }
            Call::Write { block } => {
                let (stripe, _) = self.flat.layout.place(block);
                images::set_stripe(&mut self.wanted, &self.flat, stripe);
            }
            _ => {}
        }
        if call.takes_images() {
            self.look_at_images(call, lent);
        }
    }

    /// So many stripes more of the one disk that is not what it should be.
    fn rebuilt(&mut self, made: u64) {
        assert_eq!(self.loose.len(), 1);
        for first in self.loose.values_mut() {
            *first += made;
        }
        self.loose
            .retain(|_, first| *first < self.flat.numbers.stripes);
    }

    /// Follows new blocks from their write through `MEANWHILE` to their read, all while the growth is under way.
    fn follow(&mut self, call: Call, before: &Record) {
        let numbers = &self.flat.numbers;
        if numbers.m == 0 || numbers.is_grown() {
            self.written.clear();
            return;
        }
        // an advance of no moves does not count, nor a rebuild that is not over
        let counts = match call {
            Call::Advance { .. } => numbers.moves > before.moves,
            Call::Continue { .. } => numbers.health == Health::Whole,
            _ => true,
        };
        for come in self.written.values_mut() {
            if counts && MEANWHILE.get(*come) == Some(&call.name()) {
                *come += 1;
            }
        }
        match call {
            Call::Write { block } if block >= numbers.old_capacity() => {
                self.written.insert(block, 0);
            }
            Call::Read { block } => {
                let through = self.written.get(&block) == Some(&MEANWHILE.len());
                let words = "a new block, behind its write a disk out, its rebuild and a move, the growth under way";
                self.tally.sights(call, &[(through, words)]);
            }
            _ => {}
        }
    }

    /// The images that an accepted call left are those wanted; a disk where it counts as out holds what it held; all stripes are
    /// sound.
    fn look_at_images(&mut self, call: Call, lent: &Bytes) {
        let numbers = &self.flat.numbers;
        let left = self.loan.images.bytes();
        assert_eq!(left.len(), self.wanted.len());
        for disk in 0..numbers.disks() {
            let first = *self.loose.get(&disk).unwrap_or(&numbers.stripes);
            for (stripes, wanted) in [
                (0..first, &self.wanted),
                (first..numbers.stripes, &lent.images),
            ] {
                let range = images::part(numbers, disk, stripes);
                assert!(
                    left[range.clone()] == wanted[range],
                    "disk {disk} after {call:?} on {numbers:?}"
                );
            }
        }
        if !matches!(call, Call::Read { .. }) {
            let sound = images::are_sound(left, numbers, &self.flat.layout);
            assert!(sound, "a stripe is not sound after {call:?} on {numbers:?}");
            self.images = left.to_vec();
        }
    }

    /// For an advance, which is to leave them as they are; for other calls nothing.
    fn parity_values(&self, call: Call) -> Vec<u8> {
        match call {
            Call::Advance { .. } => {
                images::parity_values(&self.images, &self.flat.numbers, &self.flat.layout)
            }
            _ => Vec::new(),
        }
    }

    /// Reads every block, if the array is not lost.
    fn read_all(&mut self) {
        self.scribble();
        if self.flat.numbers.health == Health::Lost {
            return;
        }
        let block_len = self.flat.numbers.block_len as usize;
        self.loan.lend(&Bytes {
            record: self.flat.numbers.bytes().to_vec(),
            images: self.images.clone(),
            block: self.caller.random.bytes(block_len),
        });
        for block in 0..self.flat.capacity() {
            let answer = self.loan.call(Call::Read { block });
            assert_eq!(
                answer,
                Answer::done(&[]),
                "read of block {block} at the end"
            );
            let left = self.loan.block.bytes_mut();
            assert_eq!(left, self.flat.block(block), "block {block} at the end");
            left.fill(0x5a);
        }
    }
}
