//! Which disk is out, or being rebuilt, when a block is written.

use crate::record::Health;

/// A disk, by what it has in the block's stripe.
#[derive(Clone, Copy, Debug, PartialEq, Eq)]
pub enum Disk {
    Data,
    Parity,
    /// Neither data nor parity.
    Other,
}

#[derive(Clone, Copy, Debug, PartialEq, Eq)]
pub enum Out {
    None,
    Out(Disk),
    /// Being rebuilt, the block's stripe done.
    Done(Disk),
    /// Being rebuilt, the block's stripe not done.
    Undone(Disk),
}

pub const ALL: [Out; 10] = [
    Out::None,
    Out::Out(Disk::Data),
    Out::Out(Disk::Parity),
    Out::Out(Disk::Other),
    Out::Done(Disk::Data),
    Out::Done(Disk::Parity),
    Out::Done(Disk::Other),
    Out::Undone(Disk::Data),
    Out::Undone(Disk::Parity),
    Out::Undone(Disk::Other),
];

impl Out {
    /// Its position in `ALL`.
    pub fn kind(self) -> usize {
        ALL.iter().position(|&out| out == self).unwrap()
    }

    /// The one disk that is not whole.
    pub fn disk(self) -> Option<Disk> {
        match self {
            Out::None => None,
            Out::Out(disk) | Out::Done(disk) | Out::Undone(disk) => Some(disk),
        }
    }

    /// What counts as out in the block's stripe.
    pub fn absent(self) -> Option<Disk> {
        match self {
            Out::None | Out::Done(_) => None,
            Out::Out(disk) | Out::Undone(disk) => Some(disk),
        }
    }

    /// The health with this disk, for a block of this stripe: a rebuild has just done it, or comes to it next.
    pub fn health(self, disk: u64, stripe: u64) -> Health {
        match self {
            Out::None => Health::Whole,
            Out::Out(_) => Health::Out(disk),
            Out::Done(_) => Health::Rebuilding {
                disk,
                done: stripe + 1,
            },
            Out::Undone(_) => Health::Rebuilding { disk, done: stripe },
        }
    }
}

/// The disks of neither data nor parity.
pub fn others(disks: u64, data: u64, parity: u64) -> Vec<u64> {
    (0..disks)
        .filter(|disk| ![data, parity].contains(disk))
        .collect()
}
