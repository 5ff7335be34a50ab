//! Writes a sample of the reading's answers, for the program that replays them: some of every sort of
//! block, of call and of place, but for those that need more than four blocks.
//!
//! A record is eight words of 32 bits, the low byte first, and bytes:
//!
//! | words | hold |
//! |---|---|
//! | 0 | what is asked: 0 the tests of the block at the front, 1 add, 2 remove, 3 the tests of one at a place |
//! | 1, 2 | the count of blocks, or the place: its low word, its high one |
//! | 3 | the priority of the block that is to go |
//! | 4 | how many bytes the buffer has: at most 2048 |
//! | 5, 6 | the answer: the cause's number or 0, and what stands beside it or the count |
//! | 7 | the bytes left: the sum over i of (i + 1) × byte i, of the blocks after an accepted call, else of the buffer |
//!
//! then, to be added, 508 bytes; then the buffer as it was before.
use crate::calls::CALLS;
use crate::classes::{BLOCKS, PLACES};
use crate::many::{self, Act, Call, Step};
use crate::one::{in_c, Case};
use crate::place;
use crate::rundown::{Rundown, Size, GUARD};
use common::draw::Draw;
use common::record::weighed;
use common::sorts::wanted;
use reading::{packed, Answer, BLOCK};
use std::path::Path;
use std::{fs, io};

const LONGEST: usize = 2048;

/// How many are drawn, and how many of each sort are kept; of a place fewer, for its buffers are long.
const DRAWN: u64 = 4000;
const EACH: usize = 4;
const EACH_PLACE: usize = 2;

/// The records of blocks, then those of calls, then those of places: how many there are.
pub fn write(file: &Path, seed: u64) -> io::Result<usize> {
    let records = [blocks(seed), calls(seed), places(seed)].concat();
    fs::write(file, records.concat())?;
    Ok(records.len())
}

fn blocks(seed: u64) -> Vec<Vec<u8>> {
    let mut records = Vec::new();
    let mut met = vec![0; BLOCKS.len()];
    for i in 0..DRAWN {
        let case = Case::draw(&mut Draw::new(seed, i));
        if wanted(&case, BLOCKS, &mut met, EACH) {
            records.push(judged(0, 0, in_c(case.answer), &case.block));
        }
    }
    records
}

/// Half of these come in unordered: beside those that are wanted for their sort as many accepted ones, which leave
/// two blocks or more, are kept as are lacking.
fn calls(seed: u64) -> Vec<Vec<u8>> {
    let mut records = Vec::new();
    let mut met = vec![0; CALLS.len()];
    let mut unordered = 0;
    for i in 0..DRAWN {
        let draw = &mut Draw::new(!seed, i);
        let rundown = Rundown::draw(draw, Size::Small, GUARD);
        many::sequence(draw, rundown, |rundown, step| {
            let mut after = rundown.lent().to_vec();
            let answer = step.act.read(&mut after, step.count);
            let call = Call::new(step, rundown, answer);
            let lacking = 2 * unordered < records.len() && call.unordered() && call.left.len() > 1;
            if after.len() <= LONGEST && (wanted(&call, CALLS, &mut met, EACH) || lacking) {
                unordered += call.unordered() as usize;
                records.push(called(step, answer, rundown.lent(), &after));
            }
            rundown.lent_mut().copy_from_slice(&after);
            answer
        });
    }
    records
}

fn places(seed: u64) -> Vec<Vec<u8>> {
    let mut records = Vec::new();
    let mut met = vec![0; PLACES.len()];
    for i in 0..DRAWN {
        place::sequence(&mut Draw::new(seed, DRAWN + i), |placed| {
            let short = placed.buffer.len() <= LONGEST;
            if short && wanted(placed, PLACES, &mut met, EACH_PLACE) {
                records.push(judged(3, placed.at, in_c(placed.answer), &placed.buffer));
            }
        });
    }
    records
}

/// What a record holds.
struct Record<'a> {
    what: u32,
    /// The count of blocks, or the place.
    number: usize,
    gone: u16,
    answer: u64,
    new: &'a [u8],
    buffer: &'a [u8],
    /// The bytes that are settled afterwards.
    left: &'a [u8],
}

impl Record<'_> {
    fn bytes(&self) -> Vec<u8> {
        let halves = |v: u64| [v as u32, (v >> 32) as u32];
        let [low, high] = halves(self.number as u64);
        let [beside, cause] = halves(self.answer);
        let first = [self.what, low, high, self.gone as u32];
        let rest = [self.buffer.len() as u32, cause, beside, weighed(self.left)];
        let head = first.into_iter().chain(rest);
        let head: Vec<u8> = head.flat_map(|w| w.to_le_bytes()).collect();
        [&head, self.new, self.buffer].concat()
    }
}

/// The tests of a block, which change no byte.
fn judged(what: u32, place: usize, answer: u64, buffer: &[u8]) -> Vec<u8> {
    let record = Record {
        what,
        number: place,
        gone: 0,
        answer,
        new: &[],
        buffer,
        left: buffer,
    };
    record.bytes()
}

/// A call of add or remove. Bytes past the last block are free after an accepted one.
fn called(step: &Step, answer: Answer, before: &[u8], after: &[u8]) -> Vec<u8> {
    let (what, gone, new) = match &step.act {
        Act::Add(new) => (1, 0, &new[..]),
        Act::Remove(p) => (2, *p, &[][..]),
    };
    let record = Record {
        what,
        number: step.count,
        gone,
        answer: packed(answer),
        new,
        buffer: before,
        left: &after[..answer.map_or(after.len(), |count| count * BLOCK)],
    };
    record.bytes()
}
