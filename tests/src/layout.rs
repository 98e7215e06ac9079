//! Who stands where: the layout before growth, with the moves made on it one by one. No closed form.

use crate::moves::{of_growth, Move};
use crate::record::Record;

#[derive(Clone, Copy, Debug, PartialEq, Eq)]
pub enum Owner {
    Blank,
    Parity,
    Data(u64),
}

pub struct Layout {
    n: u64,
    m: u64,
    stripes: u64,
    /// All moves of the growth, in order.
    moves: Vec<Move>,
    made: usize,
    /// So many stripes, from the first on, have had their blanks made blocks.
    filled: u64,
    /// The owner of each place, stripe by stripe.
    owners: Vec<Owner>,
    /// The disk of each stripe's parity.
    parity: Vec<u64>,
    /// Stripe and disk of each block.
    blocks: Vec<(u64, u64)>,
    /// Of each block, whether a move took it from its disk.
    moved: Vec<bool>,
}

impl Layout {
    /// "Before growth the parity of stripe S is on disk S mod n. Block b is in stripe b div (n − 1); its rank b mod (n − 1)
    /// counts data disks from the highest down, skipping parity."
    pub fn home(n: u64, stripes: u64) -> Layout {
        let mut layout = Layout {
            n,
            m: 0,
            stripes,
            moves: Vec::new(),
            made: 0,
            filled: 0,
            owners: vec![Owner::Blank; (n * stripes) as usize],
            parity: Vec::new(),
            blocks: Vec::new(),
            moved: Vec::new(),
        };
        for stripe in 0..stripes {
            let parity = stripe % n;
            layout.parity.push(parity);
            layout.put(stripe, parity, Owner::Parity);
            for disk in (0..n).rev().filter(|&d| d != parity) {
                layout.add(stripe, disk);
            }
        }
        layout
    }

    /// The layout of a good record.
    pub fn of(record: &Record) -> Layout {
        let mut layout = Layout::home(record.n, record.stripes);
        if record.m > 0 {
            layout.grow(record.m);
            layout.advance(record.moves);
        }
        layout
    }

    fn disks(&self) -> u64 {
        self.n + self.m
    }

    /// How many blocks have a place.
    pub fn capacity(&self) -> u64 {
        self.blocks.len() as u64
    }

    pub fn owner(&self, stripe: u64, disk: u64) -> Owner {
        self.owners[self.at(stripe, disk)]
    }

    pub fn parity(&self, stripe: u64) -> u64 {
        self.parity[stripe as usize]
    }

    /// Stripe and disk.
    pub fn place(&self, block: u64) -> (u64, u64) {
        self.blocks[block as usize]
    }

    /// "whether a move now done, of any growth, carried the block itself"
    pub fn is_moved(&self, block: u64) -> bool {
        self.moved[block as usize]
    }

    /// The moves of the growth, none before it.
    pub fn total(&self) -> u64 {
        self.moves.len() as u64
    }

    /// Adds m disks, all blank. "With no whole group the total is 0 and grow itself ends the growth."
    pub fn grow(&mut self, m: u64) {
        let old = std::mem::take(&mut self.owners);
        for stripe in old.chunks(self.n as usize) {
            self.owners.extend(stripe);
            self.owners.extend((0..m).map(|_| Owner::Blank));
        }
        self.m = m;
        self.moves = of_growth(self.n as i64, m as i64, self.stripes as i64);
        self.fill_finished();
    }

    /// Makes the next moves.
    pub fn advance(&mut self, count: u64) {
        for _ in 0..count {
            self.make_move(self.made);
            self.made += 1;
            self.fill_finished();
        }
    }

    /// "After each finished zone its blanks become blocks": a zone is finished if the next move is in a later one. After the last
    /// move all stripes are, those of no whole group too.
    fn fill_finished(&mut self) {
        let finished = match self.moves.get(self.made) {
            Some(next) => next.zone as u64 * self.disks(),
            None => self.stripes,
        };
        for stripe in self.filled..finished {
            self.fill_blanks(stripe);
        }
        self.filled = finished;
    }

    fn make_move(&mut self, index: usize) {
        let Move {
            zone,
            within,
            from,
            to,
            ..
        } = self.moves[index];
        let stripe = zone as u64 * self.disks() + within as u64;
        let (from, to) = (from as u64, to as u64);
        let moved = self.owner(stripe, from);
        assert_eq!(
            self.owner(stripe, to),
            Owner::Blank,
            "the rule moves to blanks"
        );
        match moved {
            Owner::Parity => self.parity[stripe as usize] = to,
            Owner::Data(block) => {
                self.blocks[block as usize] = (stripe, to);
                self.moved[block as usize] = true;
            }
            Owner::Blank => panic!("the rule moves no blanks"),
        }
        self.put(stripe, to, moved);
        self.put(stripe, from, Owner::Blank);
    }

    /// "New block T × (n − 1) + k is in stripe k div m, on blank place k mod m counted from the lowest disk."
    fn fill_blanks(&mut self, stripe: u64) {
        let before = self.capacity();
        for disk in 0..self.disks() {
            if self.owner(stripe, disk) == Owner::Blank {
                self.add(stripe, disk);
            }
        }
        assert_eq!(self.capacity(), before + self.m, "each stripe has m blanks");
    }

    /// The next block number gets this place.
    fn add(&mut self, stripe: u64, disk: u64) {
        self.put(stripe, disk, Owner::Data(self.capacity()));
        self.blocks.push((stripe, disk));
        self.moved.push(false);
    }

    fn put(&mut self, stripe: u64, disk: u64, owner: Owner) {
        let at = self.at(stripe, disk);
        self.owners[at] = owner;
    }

    fn at(&self, stripe: u64, disk: u64) -> usize {
        (stripe * self.disks() + disk) as usize
    }
}
