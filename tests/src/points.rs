//! Scan points side by side, from the words of request (e) of document 02.

use crate::pbm::Way;

/// What a call leaves in its target, from a source of even length.
pub fn made(way: Way, from: &[u8]) -> Vec<u8> {
    match way {
        Way::Pack => packed(from),
        Way::Unpack => unpacked(from),
    }
}

/// "each point is replaced by its difference from the one before, modulo 65,536, the first from 0"
pub fn packed(bytes: &[u8]) -> Vec<u8> {
    let mut before = 0;
    let mut differences = Vec::new();
    for point in points(bytes) {
        differences.push(point.wrapping_sub(before));
        before = point;
    }
    side_by_side(&differences)
}

/// "The way back": a point is the sum of all differences up to its own.
pub fn unpacked(packed: &[u8]) -> Vec<u8> {
    let (low, high) = packed.split_at(packed.len() / 2);
    let differences = low.iter().zip(high).map(|(&l, &h)| [l, h]);
    let sums = differences.scan(0u16, |sum, difference| {
        *sum = sum.wrapping_add(u16::from_le_bytes(difference));
        Some(*sum)
    });
    bytes(&sums.collect::<Vec<_>>())
}

/// "all low bytes go first, then all high bytes"
pub fn side_by_side(differences: &[u16]) -> Vec<u8> {
    let low = differences.iter().map(|difference| *difference as u8);
    let high = differences.iter().map(|d| (*d >> 8) as u8);
    low.chain(high).collect()
}

/// "16-bit points, least byte first"
pub fn bytes(points: &[u16]) -> Vec<u8> {
    points
        .iter()
        .flat_map(|point| point.to_le_bytes())
        .collect()
}

fn points(bytes: &[u8]) -> impl Iterator<Item = u16> + use<'_> {
    let pairs = bytes.chunks_exact(2);
    pairs.map(|pair| u16::from_le_bytes([pair[0], pair[1]]))
}
