//! Writes a sample of the reading's answers, for the program that replays them: some of every sort of call.
//!
//! A record has 87 words of 32 bits, the low byte first, as those of painted layers have:
//!
//! | words | hold |
//! |---|---|
//! | 0, 1 | the canvas's width and height |
//! | 2 | the blur's bits |
//! | 3, 4 | the answer: the cause's number or 0, and what stands beside it or the need |
//! | 5 | what each of the 512 bytes is before |
//! | 6 | the bytes left: the sum over i of (i + 1) × byte i |
//! | 7 to 86 | 0 |
use crate::call::{Call, CHOICES};
use crate::check::Asked;
use crate::classes::CALLS;
use common::draw::Draw;
use common::record::{weighed, WORDS};
use common::sorts::wanted;
use reading::{dearest, packed, BLOCK};
use std::path::Path;
use std::{fs, io};

/// How many of each sort are kept.
const EACH: usize = 5;

/// As many drawn calls as chosen ones are looked at, by turns: how many records there are.
pub fn write(file: &Path, seed: u64) -> io::Result<usize> {
    let mut words = Vec::new();
    let mut met = vec![0; CALLS.len()];
    let calls = (0..CHOICES).flat_map(|i| [i, CHOICES + i]);
    for i in calls {
        let asked = Asked::of(seed, i);
        if wanted(&asked, CALLS, &mut met, EACH) {
            words.extend(record(&asked.call, Draw::new(!seed, i).byte()));
        }
    }
    let bytes: Vec<u8> = words.iter().flat_map(|w| w.to_le_bytes()).collect();
    fs::write(file, bytes)?;
    Ok(words.len() / WORDS)
}

fn record(call: &Call, filled: u8) -> [u32; WORDS] {
    let mut left = [filled; BLOCK];
    let answer = packed(dearest(call.width, call.height, call.blur, &mut left));
    let [number, beside] = [answer >> 32, answer].map(|half| half as u32);
    let mut words = [0; WORDS];
    words[..3].copy_from_slice(&[call.width, call.height, call.blur.to_bits()]);
    words[3..7].copy_from_slice(&[number, beside, filled as u32, weighed(&left)]);
    words
}
