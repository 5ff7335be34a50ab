//! Writes a sample of whole rundowns with the canvases that kash-ui left and the reading's answers, for
//! the program that replays them: some of every sort but for those that need more room.
//!
//! A record is 87 words of 32 bits, the low byte first, and bytes:
//!
//! | words | hold |
//! |---|---|
//! | 0, 1 | the canvas's width and height, right or wrong: it has 64 pixels |
//! | 2, 3 | how many pixels the pool has, at most 256, and how many words the table, at most 8 |
//! | 4 | how many bytes the rundown has: at most 2560 |
//! | 5, 6 | how many bytes each scratch slice has: at most 256 |
//! | 7, 8 | the answer: the cause's number or 0, and what stands beside it or the count of layers |
//! | 9, 10 | the canvas before: pixel i is word 9 + i × word 10, wrapped |
//! | 11, 12 | the pool, in the same way |
//! | 13 to 20 | the table |
//! | 21, 22 | the forecast's scratch and its cells, 0 and 0 where it is refused |
//! | 23 to 86 | the canvas afterwards |
//!
//! then the rundown.
use crate::case::{Case, Size};
use crate::check::{Expected, Outcome};
use crate::classes::CLASSES;
use crate::forecast::Counted;
use common::draw::Draw;
use common::numbers::Pixels;
use common::sorts::wanted;
use reading::packed;
use std::path::Path;
use std::{fs, io};

const PIXELS: usize = 64;
const POOL: usize = 256;
const TABLE: usize = 8;
const RUNDOWN: usize = 2560;
const SCRATCH: usize = 256;

/// How large they are, one size after the other, how many are drawn of each, and how many of each sort are kept: of
/// those that are accepted, and of the others.
const SIZES: [Size; 2] = [Size::Recorded, Size::Round];
const DRAWN: u64 = 20_000;
const ACCEPTED: usize = 12;
const REFUSED: usize = 3;

/// How many records there are.
pub fn write(file: &Path, seed: u64) -> io::Result<usize> {
    let mut records = Vec::new();
    let mut met = vec![0; CLASSES.len()];
    for i in 0..SIZES.len() as u64 * DRAWN {
        let size = SIZES[(i / DRAWN) as usize];
        let case = Case::draw(&mut Draw::new(seed, i), size);
        if !fits(&case) {
            continue;
        }
        let expected = Expected::of(&case);
        let after = expected.canvas.clone();
        let outcome = expected.outcome(case, false);
        let each = match outcome.answer {
            Ok(_) => ACCEPTED,
            Err(_) => REFUSED,
        };
        if wanted(&outcome, CLASSES, &mut met, each) {
            records.push(record(&outcome, &after));
        }
    }
    fs::write(file, records.concat())?;
    Ok(records.len())
}

/// Whether a record has room for it.
fn fits(case: &Case) -> bool {
    case.canvas.len() == PIXELS
        && case.pool.len() <= POOL
        && case.table.len() <= TABLE
        && case.rundown.len() <= RUNDOWN
        && case.scratch.iter().all(|n| *n <= SCRATCH)
        && formula(&case.canvas).take(PIXELS) == case.canvas
        && formula(&case.pool).take(case.pool.len()) == case.pool
}

/// The words that these pixels follow from, if from any.
fn formula(px: &[u32]) -> Pixels {
    let first = px.first().copied().unwrap_or(0);
    let step = px.get(1).map_or(0, |second| second.wrapping_sub(first));
    Pixels { first, step }
}

/// On canvases of so few pixels either fits a word.
fn totals(counted: &Counted) -> [u32; 2] {
    let word = |n: u64| u32::try_from(n).expect("a few pixels have few cells");
    match counted {
        Ok(forecast) => [word(forecast.scratch as u64), word(forecast.cells)],
        Err(_) => [0, 0],
    }
}

fn record(outcome: &Outcome, after: &[u32]) -> Vec<u8> {
    let case = &outcome.case;
    let answer = packed(outcome.answer);
    let (before, pool) = (formula(&case.canvas), formula(&case.pool));
    let lengths = [case.pool.len(), case.table.len(), case.rundown.len()];
    let lengths = lengths.into_iter().chain(case.scratch).map(|n| n as u32);
    let mut words = vec![case.width, case.height];
    words.extend(lengths);
    words.extend([(answer >> 32) as u32, answer as u32]);
    words.extend([before.first, before.step, pool.first, pool.step]);
    words.extend(&case.table);
    words.resize(21, 0);
    words.extend(totals(&outcome.counted));
    words.extend(after);
    let head = words.iter().flat_map(|w| w.to_le_bytes());
    head.chain(case.rundown.iter().copied()).collect()
}
