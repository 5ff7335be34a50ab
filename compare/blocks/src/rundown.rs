//! Rundowns in buffers of all sorts of lengths, in any order, and with spoilt blocks.
use crate::one::Case;
use common::draw::Draw;
use common::layers::draw::{checked, float_at, pick, priority, valid};
use common::layers::faults::Fault;
use common::layers::fields::{Form, BEZEL, PRIORITY};
use reading::{Body, BLOCK, MOST};

/// Bytes before and behind the lent ones, which nobody may touch.
pub const GUARD: usize = 64;

/// How blocks stand, by their priorities.
#[derive(Clone, Copy, PartialEq, Eq)]
pub enum Order {
    /// None is below the one before it.
    Ascending,
    /// Three or more, each below the one before it.
    Reversed,
    Mixed,
}

impl Order {
    pub fn of(blocks: &[[u8; BLOCK]]) -> Order {
        if blocks.is_sorted_by_key(priority_in) {
            Order::Ascending
        } else if blocks.len() > 2 && blocks.is_sorted_by(|a, b| priority_in(a) > priority_in(b)) {
            Order::Reversed
        } else {
            Order::Mixed
        }
    }
}

/// A rundown in a buffer with guards.
pub struct Rundown {
    /// The lent ones between the guards.
    pub bytes: Vec<u8>,
    /// How many bytes a guard has: none where a tool watches the ends.
    pub guard: usize,
    /// How many are lent.
    pub len: usize,
    /// How many blocks stand at their front.
    pub count: usize,
}

/// How many blocks a buffer has room for.
#[derive(Clone, Copy)]
pub enum Size {
    Small,
    Full,
}

impl Rundown {
    pub fn draw(draw: &mut Draw, size: Size, guard: usize) -> Rundown {
        let (room, held) = match size {
            Size::Small => {
                let room = draw.below(7) as usize;
                // twice, for it takes two blocks to have an order
                let held = [(); 2].map(|()| draw.below(room as u64 + 1) as usize);
                (room, held[0].max(held[1]))
            }
            Size::Full => {
                let room = pick(draw, &[254, 255, 256, 256, 257, 300]);
                (room, room.min(MOST - draw.below(4) as usize))
            }
        };
        let spare = pick(draw, &[0, 0, 0, 1, 100, 511]);
        // one byte less than so many blocks
        let less = (room > held && draw.below(6) == 0) as usize;
        let len = room * BLOCK - less + spare;
        let mut rundown = Rundown {
            bytes: (0..guard + len + guard).map(|_| draw.byte()).collect(),
            guard,
            len,
            count: 0,
        };
        for _ in 0..held {
            let form = Form::draw(draw);
            let mut body = valid(draw, form);
            rundown.renumber(draw, &mut body);
            let at = rundown.count * BLOCK;
            rundown.lent_mut()[at..at + BLOCK].copy_from_slice(&checked(&body));
            rundown.count += 1;
        }
        rundown.blocks_mut().sort_by_key(priority_in);
        rundown
    }

    pub fn lent(&self) -> &[u8] {
        &self.bytes[self.guard..self.guard + self.len]
    }

    pub fn lent_mut(&mut self) -> &mut [u8] {
        &mut self.bytes[self.guard..self.guard + self.len]
    }

    fn blocks_mut(&mut self) -> &mut [[u8; BLOCK]] {
        let count = self.count;
        &mut self.lent_mut().as_chunks_mut().0[..count]
    }

    pub fn priority_of(&self, i: usize) -> u16 {
        priority_in(&self.lent().as_chunks().0[i])
    }

    fn holds(&self, priority: u16) -> bool {
        (0..self.count).any(|i| self.priority_of(i) == priority)
    }

    /// A priority that no block has: often one that shares a byte with another's.
    pub fn absent(&self, draw: &mut Draw) -> u16 {
        loop {
            let p = match (self.count, draw.below(2)) {
                (1.., 0) => {
                    let other = self.priority_of(draw.below(self.count as u64) as usize);
                    other ^ pick(draw, &[1, 0x80, 0x100, 0x8000, 0xFF00, 0x00FF])
                }
                _ => priority(draw),
            };
            if !self.holds(p) {
                return p;
            }
        }
    }

    pub fn renumber(&self, draw: &mut Draw, body: &mut Body) {
        let p = self.absent(draw);
        body[PRIORITY..PRIORITY + 2].copy_from_slice(&p.to_le_bytes());
    }

    /// Puts ascending blocks in another order, or leaves them.
    pub fn disarrange(&mut self, draw: &mut Draw) {
        let blocks = self.blocks_mut();
        let n = blocks.len();
        match draw.below(8) {
            _ if n < 2 => {}
            0..=2 => {}
            3..=4 => blocks.reverse(),
            // one of them stands behind its place
            5 => {
                let from = draw.below(n as u64 - 1) as usize;
                let to = from + 1 + draw.below((n - 1 - from) as u64) as usize;
                blocks[from..=to].rotate_left(1);
            }
            _ => {
                for i in (1..n).rev() {
                    blocks.swap(i, draw.below(i as u64 + 1) as usize);
                }
            }
        }
    }

    /// Spoils blocks that are held: a fault, a bit, a torn table, or a priority twice.
    pub fn spoil(&mut self, draw: &mut Draw) {
        for _ in 0..1 + draw.below(2) {
            if self.count == 0 {
                return;
            }
            let at = BLOCK * draw.below(self.count as u64) as usize;
            let form = Form::draw(draw);
            let mut block: [u8; BLOCK] = self.lent()[at..at + BLOCK]
                .try_into()
                .expect("a block lies there");
            match draw.below(5) {
                0 => block = Case::faulty(draw, form, 2).block,
                1 => block[draw.below(BLOCK as u64) as usize] ^= 1 << draw.below(8),
                2 => block = torn(draw, priority_in(&block)),
                _ => {
                    let twice = self.priority_of(draw.below(self.count as u64) as usize);
                    block[PRIORITY..PRIORITY + 2].copy_from_slice(&twice.to_le_bytes());
                    block = checked(block.first_chunk().expect("a block has a body"));
                }
            }
            self.lent_mut()[at..at + BLOCK].copy_from_slice(&block);
        }
    }
}

/// A panel of this priority, with an entry above what its bezel allows.
pub fn torn(draw: &mut Draw, priority: u16) -> [u8; BLOCK] {
    let form = Form::of(4);
    let mut body = valid(draw, form);
    while float_at(&body, BEZEL) <= 0.5 {
        body = valid(draw, form);
    }
    Fault::Bend.put(draw, form, &mut body);
    body[PRIORITY..PRIORITY + 2].copy_from_slice(&priority.to_le_bytes());
    checked(&body)
}

pub fn priority_in(block: &[u8; BLOCK]) -> u16 {
    u16::from_le_bytes([block[PRIORITY], block[PRIORITY + 1]])
}
