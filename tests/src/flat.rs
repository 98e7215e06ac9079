//! "The flat list of demand 3": a small machine that is fed each call's arguments and the lengths lent, and no byte of
//! record or images.

use crate::layout::{Layout, Owner};
use crate::pbm::{Answer, Call};
use crate::record::{Health, Record};
use crate::table::{refusal, Lent};

pub struct Flat {
    /// n, m, B, T, t and health.
    pub numbers: Record,
    /// By Layout, where each of the blocks stands.
    pub layout: Layout,
    /// The list of blocks, one after the other.
    blocks: Vec<u8>,
}

impl Flat {
    /// What an accepted format makes.
    pub fn format(n: u64, block_len: u64, stripes: u64) -> Flat {
        Flat {
            numbers: Record::new(n, block_len, stripes),
            layout: Layout::home(n, stripes),
            blocks: vec![0; (stripes * (n - 1) * block_len) as usize],
        }
    }

    /// The list's length.
    pub fn capacity(&self) -> u64 {
        self.blocks.len() as u64 / self.numbers.block_len
    }

    pub fn block(&self, block: u64) -> &[u8] {
        let len = self.numbers.block_len as usize;
        &self.blocks[block as usize * len..][..len]
    }

    /// One call. `block` is a write's data, or what a read fills.
    pub fn step(&mut self, call: Call, lent: &Lent, block: &mut [u8]) -> Answer {
        let counted = [self.numbers.capacity(), self.layout.capacity()];
        assert_eq!(counted, [self.capacity(); 2], "{:?}", self.numbers);
        match refusal(&self.numbers, call, lent) {
            0 => self.accept(call, block),
            number => Answer::refused(number),
        }
    }

    fn accept(&mut self, call: Call, room: &mut [u8]) -> Answer {
        let numbers = &mut self.numbers;
        match call {
            Call::Format {
                n,
                block_len,
                stripes,
            } => *self = Flat::format(n, block_len, stripes),
            Call::Read { block } => room.copy_from_slice(self.block(block)),
            Call::Write { block } => {
                let len = room.len();
                self.blocks[block as usize * len..][..len].copy_from_slice(room);
            }
            Call::Grow { m } => {
                numbers.m = m;
                self.layout.grow(m);
                self.lengthen(0);
            }
            Call::Advance { k } => {
                let made = k.min(numbers.total() - numbers.moves);
                numbers.moves += made;
                self.layout.advance(made);
                self.lengthen(made);
                return Answer::done(&[made]);
            }
            Call::Out { disk } => {
                numbers.health = match numbers.health {
                    Health::Whole => Health::Out(disk),
                    Health::Rebuilding { disk: same, .. } if same == disk => Health::Out(disk),
                    _ => Health::Lost,
                }
            }
            Call::Begin { disk } => numbers.health = Health::Rebuilding { disk, done: 0 },
            Call::Continue { k } => return self.rebuild(k),
            Call::Status => return self.status(),
            Call::Locate { block } => return located(&self.layout, block),
            Call::Owner { stripe, disk } => return owned(self.layout.owner(stripe, disk)),
            // it has no stripe that could be unsound
            Call::Sweep => return swept(None, numbers.stripes),
        }
        Answer::done(&[])
    }

    /// By k stripes more, or by those that are left. "At T health is whole."
    fn rebuild(&mut self, k: u64) -> Answer {
        let Record { stripes, .. } = self.numbers;
        let Health::Rebuilding { disk, done } = self.numbers.health else {
            unreachable!("refused, 10")
        };
        let made = k.min(stripes - done);
        self.numbers.health = match done + made {
            done if done == stripes => Health::Whole,
            done => Health::Rebuilding { disk, done },
        };
        Answer::done(&[made])
    }

    /// "The flat list lengthens by just these zero blocks as they come, at grow itself where the total is 0": after each of the
    /// moves just made that is the last of a zone by those of its stripes, and at the total by those of the tail.
    fn lengthen(&mut self, made: u64) {
        let Record { n, m, moves, .. } = self.numbers;
        for t in moves - made + 1..=moves {
            if t % (n * m) == 0 {
                self.add_stripes(n + m);
            }
        }
        if self.numbers.is_grown() {
            self.add_stripes(self.numbers.tail());
        }
    }

    /// The new blocks of so many stripes, m of each.
    fn add_stripes(&mut self, stripes: u64) {
        let Record { m, block_len, .. } = self.numbers;
        let len = self.blocks.len() + (stripes * m * block_len) as usize;
        self.blocks.resize(len, 0);
    }

    fn status(&self) -> Answer {
        let [health, out, rebuilt] = self.numbers.health.numbers();
        let (capacity, total) = (self.capacity(), self.layout.total());
        Answer::done(&[capacity, self.numbers.moves, total, health, out, rebuilt])
    }
}

/// The answer of locate: "block place, parity place and whether a move now done, of any growth, carried the block itself". The two
/// places are in one stripe, which is given once.
pub fn located(layout: &Layout, block: u64) -> Answer {
    let (stripe, disk) = layout.place(block);
    let moved = layout.is_moved(block);
    Answer::done(&[stripe, disk, layout.parity(stripe), moved.into()])
}

/// The answer of sweep, by the first unsound stripe of so many: if there is one, which it is, and "the stripes read (its number plus
/// 1, or T where there is none)".
pub fn swept(first: Option<u64>, stripes: u64) -> Answer {
    match first {
        Some(stripe) => Answer::done(&[1, stripe, stripe + 1]),
        None => Answer::done(&[0, 0, stripes]),
    }
}

/// The answer of owner.
pub fn owned(owner: Owner) -> Answer {
    match owner {
        Owner::Blank => Answer::done(&[0, 0]),
        Owner::Parity => Answer::done(&[1, 0]),
        Owner::Data(block) => Answer::done(&[2, block]),
    }
}
