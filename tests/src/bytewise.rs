//! What an accepted call answers and leaves, byte for byte as "Calls" of document 01 and requests (d), (f) and (g) of document 02 say
//! it, on any bytes: here nothing rests on stripes that are sound.

use crate::flat::{located, owned, swept};
use crate::images::{disk, place, unsound, xor};
use crate::layout::Layout;
use crate::moves::of_growth;
use crate::pbm::{Answer, Bytes, Call};
use crate::record::{Health, Record};

/// Makes accepted calls on bytes. Keeps the layout that it replayed last.
#[derive(Default)]
pub struct Bytewise {
    last: Option<(Record, Layout)>,
}

impl Bytewise {
    /// The answer; what is lent becomes what is left.
    pub fn accept(&mut self, call: Call, lent: &mut Bytes) -> Answer {
        let record = Record::of(lent.record[..].try_into().unwrap());
        let Bytes { images, block, .. } = &mut *lent;
        let mut left = record;
        let mut answer = Answer::done(&[]);
        match call {
            Call::Format {
                n,
                block_len,
                stripes,
            } => {
                images.fill(0);
                left = Record::new(n, block_len, stripes);
            }
            Call::Read { block: number } => {
                let (stripe, disk) = self.layout(&record).place(number);
                block.copy_from_slice(&seen(images, &record, stripe, disk));
            }
            Call::Write { block: number } => {
                write(images, &record, self.layout(&record), number, block)
            }
            Call::Grow { m } => {
                images[disk(&record, record.n).start..].fill(0);
                left.m = m;
            }
            Call::Advance { k } => {
                let made = make_moves(images, &record, k);
                left.moves += made;
                answer = Answer::done(&[made]);
            }
            Call::Out { disk } => {
                let is_another = match record.health {
                    Health::Whole => false,
                    Health::Rebuilding { disk: first, .. } => first != disk,
                    _ => true,
                };
                left.health = match is_another {
                    true => Health::Lost,
                    false => Health::Out(disk),
                }
            }
            Call::Begin { disk } => left.health = Health::Rebuilding { disk, done: 0 },
            Call::Continue { k } => {
                let made = make_stripes(images, &record, k);
                left.health = behind(&record, made);
                answer = Answer::done(&[made]);
            }
            Call::Status => answer = status(&record),
            Call::Locate { block } => answer = located(self.layout(&record), block),
            Call::Owner { stripe, disk } => {
                answer = owned(self.layout(&record).owner(stripe, disk));
            }
            Call::Sweep => {
                let mut unsound = unsound(images, &record, self.layout(&record));
                answer = swept(unsound.next(), record.stripes);
            }
        }
        // the other calls leave the record's bytes, which are good, as they are
        lent.record.copy_from_slice(&left.bytes());
        answer
    }

    fn layout(&mut self, record: &Record) -> &Layout {
        let shape = Record {
            health: Health::Whole,
            ..*record
        };
        if !matches!(&self.last, Some((last, _)) if *last == shape) {
            self.last = Some((shape, Layout::of(&shape)));
        }
        &self.last.as_ref().unwrap().1
    }
}

/// The xor of the stripe's other places.
fn others(images: &[u8], record: &Record, stripe: u64, disk: u64) -> Vec<u8> {
    let mut sum = vec![0; record.block_len as usize];
    for other in (0..record.disks()).filter(|&other| other != disk) {
        xor(&mut sum, &images[place(record, stripe, other)]);
    }
    sum
}

/// "An out disk is never read: its place counts as the xor of the stripe's other places."
fn seen(images: &[u8], record: &Record, stripe: u64, disk: u64) -> Vec<u8> {
    match record.health.is_out(stripe, disk) {
        true => others(images, record, stripe, disk),
        false => images[place(record, stripe, disk)].to_vec(),
    }
}

/// "the data place takes the data, the parity place its old value xor old block xor data; either is skipped if its disk is
/// out"
fn write(images: &mut [u8], record: &Record, layout: &Layout, number: u64, data: &[u8]) {
    let (stripe, disk) = layout.place(number);
    let parity_disk = layout.parity(stripe);
    let mut parity = seen(images, record, stripe, parity_disk);
    xor(&mut parity, &seen(images, record, stripe, disk));
    xor(&mut parity, data);
    for (disk, bytes) in [(disk, data), (parity_disk, &parity)] {
        if !record.health.is_out(stripe, disk) {
            images[place(record, stripe, disk)].copy_from_slice(bytes);
        }
    }
}

/// "makes moves in order until k are made or none is left": how many. "A move copies the block to its new place, then zeroes the
/// place it left."
fn make_moves(images: &mut [u8], record: &Record, k: u64) -> u64 {
    let [n, m, stripes] = [record.n, record.m, record.stripes].map(|x| x as i64);
    let all = of_growth(n, m, stripes);
    let next = &all[record.moves as usize..];
    let made = k.min(next.len() as u64);
    for x in &next[..made as usize] {
        let stripe = x.zone as u64 * record.disks() + x.within as u64;
        let from = place(record, stripe, x.from as u64);
        let to = place(record, stripe, x.to as u64);
        images.copy_within(from.clone(), to.start);
        images[from].fill(0);
    }
    made
}

/// "does stripes in rising order until k are done or none is left": how many.
fn make_stripes(images: &mut [u8], record: &Record, k: u64) -> u64 {
    let [_, disk, done] = record.health.numbers();
    let mut made = 0;
    for stripe in done..record.stripes {
        if made == k {
            break;
        }
        let sum = others(images, record, stripe, disk);
        images[place(record, stripe, disk)].copy_from_slice(&sum);
        made += 1;
    }
    made
}

/// The health with so many stripes more. "At T health is whole."
fn behind(record: &Record, made: u64) -> Health {
    let [_, disk, done] = record.health.numbers();
    match record.stripes - done - made {
        0 => Health::Whole,
        _ => Health::Rebuilding {
            disk,
            done: done + made,
        },
    }
}

/// "capacity, t, total, health", the disk that is out or being rebuilt, and the stripes of it that are done, as the record has
/// them.
fn status(record: &Record) -> Answer {
    let [health, out, rebuilt] = record.health.numbers();
    let (capacity, total) = (record.capacity(), record.total());
    Answer::done(&[capacity, record.moves, total, health, out, rebuilt])
}
