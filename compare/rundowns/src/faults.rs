//! Faults to be put into a rundown, each with the cause and the block that it is to be refused for.
use crate::layers::Stage;
use common::draw::Draw;
use common::layers::draw::pick;
use reading::{Cause, BLOCK, MOST};

#[derive(Clone, Copy, PartialEq, Eq, Debug)]
pub struct Fault {
    pub cause: Cause,
    /// The block, 0 where the cause is of none.
    pub at: usize,
}

const CAUSES: [Cause; 12] = [
    Cause::Canvas,
    Cause::Sources,
    Cause::Rundown,
    Cause::Check,
    Cause::Form,
    Cause::Float,
    Cause::Integer,
    Cause::Priority,
    Cause::Source,
    Cause::Frame,
    Cause::Scratch,
    Cause::Bend,
];

impl Fault {
    /// Which of two faults play meets first: 01's order, and 02's where 15 stands in it.
    pub fn rank(&self) -> (u32, usize, u32) {
        let cause = self.cause as u32;
        match self.cause {
            Cause::Priority => (4, self.at, cause),
            Cause::Scratch => (5, self.at, cause),
            Cause::Canvas | Cause::Sources | Cause::Rundown => (cause, 0, 0),
            // after 7 and before 9
            Cause::Bend => (3, self.at + 1, 8),
            _ => (3, self.at + 1, cause),
        }
    }

    /// A fault for one of so many blocks.
    fn draw(draw: &mut Draw, blocks: usize) -> Option<Fault> {
        let cause = pick(draw, &CAUSES);
        let first = match cause {
            Cause::Canvas | Cause::Sources | Cause::Rundown => {
                return Some(Fault { cause, at: 0 });
            }
            // an earlier block has the priority
            Cause::Priority => 1,
            _ => 0,
        };
        let at = first + draw.below(blocks.checked_sub(first)? as u64) as usize;
        (at < blocks).then_some(Fault { cause, at })
    }

    /// The kinds of layer that can have it.
    fn kinds(&self) -> std::ops::RangeInclusive<usize> {
        match self.cause {
            Cause::Source => 5..=7,
            Cause::Frame => 8..=8,
            Cause::Scratch | Cause::Bend => 4..=4,
            Cause::Float => 1..=7,
            _ => 1..=8,
        }
    }
}

/// No, one or two faults for so many blocks.
pub fn plan(draw: &mut Draw, stage: &Stage, blocks: usize) -> Vec<Fault> {
    let mut faults: Vec<Fault> = Vec::new();
    let count = [0, 0, 0, 0, 1, 2, 2, 2][draw.below(8) as usize];
    while faults.len() < count {
        let Some(fault) = Fault::draw(draw, blocks) else {
            break;
        };
        let again = faults
            .iter()
            .any(|f| f.cause == fault.cause && (f.at == fault.at || fault.rank().0 != 3));
        faults.push(fault);
        if again || number_for(draw, stage, &faults, fault.at).is_none() {
            faults.pop();
            break;
        }
    }
    faults
}

/// A kind for block `at` that can have all faults that are to be put there.
pub fn number_for(draw: &mut Draw, stage: &Stage, faults: &[Fault], at: usize) -> Option<usize> {
    let here = |f: &&Fault| f.at == at && f.rank().0 >= 3;
    // a source that is not there can be named without any
    let named = |f: &Fault| f.cause == Cause::Source;
    let kinds: Vec<usize> = (1..=8)
        .filter(|k| stage.has(*k) || faults.iter().filter(here).any(named))
        .filter(|k| faults.iter().filter(here).all(|f| f.kinds().contains(k)))
        .collect();
    match kinds.len() {
        0 => None,
        8 => Some(stage.number(draw)),
        _ => Some(pick(draw, &kinds)),
    }
}

/// A width, a height and a number of pixels that are refused.
pub fn wrong_canvas(draw: &mut Draw, w: u32, h: u32) -> (u32, u32, usize) {
    let pixels = w as usize * h as usize;
    match draw.below(10) {
        0 => (w, h, pixels - 1),
        1 => (w, h, pixels + 1),
        2 => (w, h, 0),
        3 => (0, h, pixels),
        4 => (w, 0, 0),
        5 => (4097, 1, 4097),
        6 => (1, 4097, 4097),
        7 => (1 << 16, 1 << 16, 0),
        8 => (u32::MAX, u32::MAX, 1),
        _ => (h + 1, w, pixels),
    }
}

/// Makes a table and a pool that are refused.
pub fn spoil_sources(draw: &mut Draw, table: &mut Vec<u32>, pool: &mut Vec<u32>) {
    match draw.below(9) {
        0 => table.push(pick(draw, &[0, 1, 4096])),
        1 => {
            table.pop();
            table.extend([1, 1]);
            table.truncate(table.len() / 2 * 2 + 1);
        }
        // too many, of which each is right
        2 => {
            while table.len() < 34 {
                table.extend([1, 1]);
                pool.push(draw.pixel());
            }
        }
        3 => table.extend([0, pick(draw, &[0, 1, 4096])]),
        4 => {
            table.extend([4097, 1]);
            pool.resize(pool.len() + 4097, 0x77);
        }
        5 => {
            table.extend([1, 4097]);
            pool.resize(pool.len() + 4097, 0x77);
        }
        // no pixels, if the product wrapped
        6 => table.extend([1 << 16, 1 << 16]),
        7 if !pool.is_empty() => {
            pool.pop();
        }
        _ => pool.push(draw.pixel()),
    }
}

/// Makes a rundown that has no whole number of blocks, or too many.
pub fn spoil_length(draw: &mut Draw, rundown: &mut Vec<u8>) {
    match draw.below(6) {
        0 => rundown.push(draw.byte()),
        1 if !rundown.is_empty() => {
            rundown.pop();
        }
        2 => rundown.resize(rundown.len() + BLOCK - 1, 0),
        3 => {
            let block = rundown.first_chunk().copied().unwrap_or([0; BLOCK]);
            rundown.clear();
            (0..=MOST).for_each(|_| rundown.extend(block));
        }
        4 => rundown.resize((MOST + 1) * BLOCK, 0),
        _ => rundown.extend((0..1 + draw.below(300)).map(|i| i as u8)),
    }
}
