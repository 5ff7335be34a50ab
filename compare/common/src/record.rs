//! Writes a sample of the Rust's answers, for the programs that replay them.
//!
//! A record is 87 words of 32 bits, the low byte first; floats are their bits:
//!
//! | words | hold |
//! |---|---|
//! | 0 | the painter |
//! | 1, 2 | the canvas's width and height: it has 64 pixels, or more |
//! | 3 to 6 | the clip: x0, y0, x1, y1, as floats |
//! | 7 to 20 | the layer: [`Case::words`] |
//! | 21, 22 | the canvas before: pixel i is word 21 + i × word 22, wrapped |
//! | 23 to 86 | its last 64 pixels as the Rust left them |
use crate::draw::Draw;
use crate::numbers::Canvas;
use crate::painters::{after_rust, Case};
use std::path::Path;
use std::{fs, io};

/// Words of a record.
pub const WORDS: usize = 87;

const PIXELS: usize = 64;

/// Records a painter, and of these how many may leave the canvas as it was.
const EACH: usize = 120;
const IDLE: usize = 20;

/// The records of all painters, one after another.
pub fn write<C: Case>(file: &Path, seed: u64) -> io::Result<usize> {
    let painters = 0..C::PAINTERS.len();
    let words: Vec<u32> = painters.flat_map(|p| records::<C>(p, seed)).collect();
    let bytes: Vec<u8> = words.iter().flat_map(|w| w.to_le_bytes()).collect();
    fs::write(file, bytes)?;
    Ok(EACH * C::PAINTERS.len())
}

/// The words of one painter's records.
fn records<C: Case>(painter: usize, seed: u64) -> Vec<u32> {
    let mut words = Vec::new();
    let (mut taken, mut idle) = (0, 0);
    let mut i = 0;
    while taken < EACH {
        let c = C::draw(&mut Draw::new(seed, i), painter, Canvas::Recorded);
        i += 1;
        let before = c.canvas_before().take(c.onto().w * c.onto().h);
        let after = after_rust(&c, &before);
        let kept = after.len() - PIXELS;
        if after[kept..] == before[kept..] {
            idle += 1;
            if idle > IDLE {
                continue;
            }
        }
        taken += 1;
        words.extend([painter as u32, c.onto().w as u32, c.onto().h as u32]);
        words.extend(c.onto().clip.map(|v| (v as f32).to_bits()));
        words.extend(c.words());
        words.extend([c.canvas_before().first, c.canvas_before().step]);
        words.extend(&after[kept..]);
    }
    words
}

/// The sum over i of (i + 1) × byte i, which tells bytes in one order from the same in another. Of at most 2048 bytes
/// it stays below 2^30.
pub fn weighed(bytes: &[u8]) -> u32 {
    (1..).zip(bytes).map(|(i, b)| i * *b as u32).sum()
}
