//! Arrays that the library has made by moves, each held to the replay of these.

use crate::array::Array;
use crate::flat::{located, owned};
use crate::layout::Layout;
use crate::pbm::{Answer, Call};
use crate::record::Record;

/// After so many moves of a growth from n to n + m disks, made one by one.
pub fn grown(n: u64, m: u64, stripes: u64, moves: u64) -> Layout {
    Layout::of(&Record {
        m,
        moves,
        ..Record::new(n, 1, stripes)
    })
}

/// The same array, made by the library: it answers what the replay has, of every place and of every block.
pub fn made(n: u64, m: u64, stripes: u64, moves: u64) -> Array {
    let mut array = Array::format(n, 1, stripes);
    assert_eq!(array.grow(m), Answer::done(&[]));
    if moves > 0 {
        assert_eq!(array.advance(moves), Answer::done(&[moves]));
    }
    let layout = grown(n, m, stripes, moves);
    let figures = [layout.capacity(), moves, layout.total()];
    assert_eq!(status(&mut array), figures);
    for (stripe, disk) in places(0..stripes, n + m) {
        let owner = owned(layout.owner(stripe, disk));
        assert_eq!(array.owner(stripe, disk), owner);
    }
    for block in 0..layout.capacity() {
        assert_eq!(array.locate(block), located(&layout, block));
    }
    array
}

/// Stripe and disk of each place of these stripes.
pub fn places(stripes: impl Iterator<Item = u64>, disks: u64) -> impl Iterator<Item = (u64, u64)> {
    stripes.flat_map(move |s| (0..disks).map(move |d| (s, d)))
}

/// Capacity, moves and total of a whole array.
pub fn status(array: &mut Array) -> [u64; 3] {
    let answer = array.call(Call::Status);
    let [capacity, moves, total, ..] = answer.beside;
    assert_eq!(answer, Answer::done(&[capacity, moves, total]));
    [capacity, moves, total]
}
