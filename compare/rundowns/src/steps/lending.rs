//! What one call of a playing in steps is lent, but for the canvas and for what scratch holds.
use crate::case::{disturb, Case};
use common::draw::Draw;
use common::numbers::Pixels;
use ours::surface;
use reading::{priority_of, Show, BLOCK};
use std::rc::Rc;

/// Shared with the other calls that are lent the same.
#[derive(Clone, Debug)]
pub struct Lending {
    pub rundown: Rc<[u8]>,
    pub width: u32,
    pub height: u32,
    /// How many pixels the canvas has: the same in all calls.
    pub canvas: usize,
    pub table: Rc<[u32]>,
    /// Of the first playing and of the second: they may differ at the words of the hidden source alone.
    pub pools: [Rc<[u32]>; 2],
    /// The lengths of the scratch slices.
    pub scratch: [usize; 2],
}

impl Lending {
    pub fn of(case: &Case) -> Lending {
        Lending {
            rundown: case.rundown.as_slice().into(),
            width: case.width,
            height: case.height,
            canvas: case.canvas.len(),
            table: case.table.as_slice().into(),
            pools: [case.pool.as_slice().into(), case.other.as_slice().into()],
            scratch: case.scratch,
        }
    }

    /// What the answer depends on: the same in both playings.
    pub fn show(&self) -> Show<'_> {
        Show {
            rundown: &self.rundown,
            width: self.width,
            height: self.height,
            canvas: self.canvas,
            table: &self.table,
            pool: self.pools[0].len(),
            scratch: self.scratch,
        }
    }

    /// Whether the tests find here what they find there: they look at no pixel.
    pub fn tests_as(&self, other: &Lending) -> bool {
        let numbers = |l: &Lending| (l.width, l.height, l.canvas, l.pools[0].len(), l.scratch);
        Rc::ptr_eq(&self.rundown, &other.rundown)
            && Rc::ptr_eq(&self.table, &other.table)
            && numbers(self) == numbers(other)
    }

    /// What the library is lent to read in this playing.
    pub fn lent(&self, playing: usize) -> surface::Show<'_> {
        surface::Show {
            rundown: &self.rundown,
            width: self.width,
            height: self.height,
            table: &self.table,
            pool: &self.pools[playing],
        }
    }

    /// Of all whole blocks, as they stand in the buffer.
    pub fn priorities(&self) -> Vec<u16> {
        let blocks = self.rundown.as_chunks::<BLOCK>().0.iter();
        let bodies = blocks.map(|block| block.first_chunk().expect("a block has a body"));
        bodies.map(priority_of).collect()
    }

    /// Fresh pixels for one source, or for all, whose sizes stay.
    pub fn refresh(&mut self, draw: &mut Draw, hidden: usize) {
        let sources = self.table.len() as u64 / 2;
        let mut pool = self.pools[0].to_vec();
        let words = match draw.below(sources + 1) {
            s if s < sources => self.show().words_of(s as usize),
            _ => 0..pool.len(),
        };
        let fresh = Pixels::draw(draw).take(words.len());
        pool[words].copy_from_slice(&fresh);
        self.fill(draw, pool, hidden);
    }

    /// A pool of these pixels; in the second playing the hidden source has others.
    pub fn fill(&mut self, draw: &mut Draw, pool: Vec<u32>, hidden: usize) {
        let mut other = pool.clone();
        self.pools[0] = pool.into();
        let words = self.show().words_of(hidden);
        disturb(draw, &mut other[words]);
        self.pools[1] = other.into();
    }
}
