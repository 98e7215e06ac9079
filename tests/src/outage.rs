//! What came since a whole array lost a disk: for the situations of its rebuild that take more than one call.

use crate::flat::Flat;
use crate::pbm::Call;
use crate::record::{Health, Record};
use crate::tally::Tally;
use std::collections::{BTreeMap, BTreeSet};

#[derive(Default)]
pub struct Outage {
    /// The disk failed again while it was being rebuilt.
    failed_again: bool,
    /// Grow, advance or sweep, if it was refused because of a rebuild.
    refused: BTreeSet<&'static str>,
    /// The blocks of the disk that were last written while it was being rebuilt, and whether their stripes were done then.
    written: BTreeMap<u64, bool>,
}

impl Outage {
    /// After a call that was refused.
    pub fn refused(&mut self, call: Call, number: u8, numbers: &Record) {
        if number == 3 && matches!(numbers.health, Health::Rebuilding { .. }) {
            self.refused.insert(call.name());
        }
    }

    /// After one that was accepted, by the numbers before it.
    pub fn accepted(&mut self, call: Call, before: &Record, flat: &Flat, tally: &mut Tally) {
        let health = flat.numbers.health;
        match call {
            Call::Format { .. } => *self = Outage::default(),
            Call::Out { .. } if before.health == Health::Whole => *self = Outage::default(),
            Call::Out { .. } => self.failed_again = true,
            Call::Begin { .. } => {
                let words = "a disk that failed in its rebuild";
                tally.sights(call, &[(self.failed_again, words)]);
            }
            Call::Continue { .. } => {
                let is_over = self.failed_again && health == Health::Whole;
                let words = "the array is whole, the disk having failed in its rebuild";
                tally.sights(call, &[(is_over, words)]);
            }
            // an advance of no moves does not count
            Call::Grow { .. } | Call::Advance { .. } if flat.numbers != *before => {
                self.comes_again(call, tally)
            }
            Call::Sweep => self.comes_again(call, tally),
            Call::Write { block } => self.write(block, flat),
            Call::Read { block } => self.read(call, block, flat, tally),
            _ => {}
        }
    }

    /// A call that a rebuild may have refused.
    fn comes_again(&mut self, call: Call, tally: &mut Tally) {
        let was_refused = self.refused.remove(call.name());
        let words = "the rebuild over in which it was refused";
        tally.sights(call, &[(was_refused, words)]);
    }

    fn write(&mut self, block: u64, flat: &Flat) {
        let (stripe, on) = flat.layout.place(block);
        match flat.numbers.health {
            Health::Rebuilding { disk, done } if on == disk => {
                self.written.insert(block, stripe < done)
            }
            _ => self.written.remove(&block),
        };
    }

    fn read(&self, call: Call, block: u64, flat: &Flat, tally: &mut Tally) {
        let Some(&was_done) = self.written.get(&block) else {
            return;
        };
        let (stripe, disk) = flat.layout.place(block);
        let health = flat.numbers.health;
        let is_in = !health.is_out(stripe, disk);
        let is_over = health == Health::Whole;
        tally.sights(
            call,
            &[
                (
                    !was_done && is_in && !is_over,
                    "a block of the disk being rebuilt, written before its stripe was done",
                ),
                (
                    was_done && !is_in,
                    "a block of the disk that failed again, written when its stripe was done",
                ),
                (
                    is_over,
                    "a block written in its disk's rebuild, which is over",
                ),
            ],
        );
    }
}
