//! The bytes of the images: what each place is to hold, and when stripes are sound.

use crate::flat::Flat;
use crate::layout::{Layout, Owner};
use crate::record::Record;
use std::ops::Range;

/// The bytes of place (stripe, disk).
pub fn place(record: &Record, stripe: u64, disk: u64) -> Range<usize> {
    let start = (disk * record.stripes + stripe) * record.block_len;
    start as usize..(start + record.block_len) as usize
}

/// The bytes of a disk.
pub fn disk(record: &Record, disk: u64) -> Range<usize> {
    part(record, disk, 0..record.stripes)
}

/// The bytes of these stripes of a disk.
pub fn part(record: &Record, disk: u64, stripes: Range<u64>) -> Range<usize> {
    let start = place(record, stripes.start, disk).start;
    start..start + (stripes.end - stripes.start) as usize * record.block_len as usize
}

pub fn xor(into: &mut [u8], from: &[u8]) {
    for (a, b) in into.iter_mut().zip(from) {
        *a ^= b;
    }
}

/// Sets one stripe as the flat list has it: blocks at their places, the parity their xor, blanks zero.
pub fn set_stripe(images: &mut [u8], flat: &Flat, stripe: u64) {
    let record = &flat.numbers;
    let mut parity = vec![0; record.block_len as usize];
    for disk in 0..record.disks() {
        let bytes = &mut images[place(record, stripe, disk)];
        match flat.layout.owner(stripe, disk) {
            Owner::Data(block) => {
                bytes.copy_from_slice(flat.block(block));
                xor(&mut parity, bytes);
            }
            Owner::Blank => bytes.fill(0),
            Owner::Parity => {}
        }
    }
    let disk = flat.layout.parity(stripe);
    images[place(record, stripe, disk)].copy_from_slice(&parity);
}

/// The images that the flat list stands for.
pub fn of(flat: &Flat) -> Vec<u8> {
    let mut images = vec![0; flat.numbers.images_len() as usize];
    for stripe in 0..flat.numbers.stripes {
        set_stripe(&mut images, flat, stripe);
    }
    images
}

/// Each stripe's parity value, one after the other.
pub fn parity_values(images: &[u8], record: &Record, layout: &Layout) -> Vec<u8> {
    (0..record.stripes)
        .flat_map(|stripe| &images[place(record, stripe, layout.parity(stripe))])
        .copied()
        .collect()
}

/// "A stripe is sound if its N places xor to zero and its blanks are zero", "the out disk taken as the xor of the others", where it
/// counts as out.
fn is_sound(images: &[u8], record: &Record, layout: &Layout, stripe: u64) -> bool {
    let zero = |bytes: &[u8]| bytes.iter().all(|&b| b == 0);
    let is_out = |d: u64| record.health.is_out(stripe, d);
    let mut sum = vec![0; record.block_len as usize];
    for d in (0..record.disks()).filter(|&d| !is_out(d)) {
        xor(&mut sum, &images[place(record, stripe, d)]);
    }
    let seen = |d: u64| match is_out(d) {
        true => &sum[..],
        false => &images[place(record, stripe, d)],
    };
    let blanks_zero = (0..record.disks())
        .filter(|&d| layout.owner(stripe, d) == Owner::Blank)
        .all(|d| zero(seen(d)));
    ((0..record.disks()).any(is_out) || zero(&sum)) && blanks_zero
}

/// "the list of all unsound stripes"
pub fn unsound<'a>(
    images: &'a [u8],
    record: &'a Record,
    layout: &'a Layout,
) -> impl Iterator<Item = u64> + 'a {
    (0..record.stripes).filter(|&stripe| !is_sound(images, record, layout, stripe))
}

/// All stripes are sound.
pub fn are_sound(images: &[u8], record: &Record, layout: &Layout) -> bool {
    unsound(images, record, layout).next().is_none()
}
