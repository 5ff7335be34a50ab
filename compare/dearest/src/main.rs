//! Asks the proved library and the reading in `../reading` for the dearest panel of the same canvases and blurs. The
//! block that the library shows is free, so it is held to what users may rest on, and apart from that to the one that
//! our contract names, byte by byte. Beside 02's formula panels are drawn in search of one that needs more.
//!
//!     dearest [sample | all] [SEED]
//!     dearest exact COUNT [SEED]
//!     dearest record FILE [SEED]
//!
//! `exact` lends buffers of just their length, for a tool that watches memory; `record` writes some of the reading's
//! answers, which crate `replay_dearest` replays.
mod bits;
mod call;
mod check;
mod classes;
mod record;
mod search;
mod shown;

use check::{check, Asked, Counts};
use classes::{CALLS, FOUND};
use common::draw::Draw;
use common::lend::Lent;
use common::sorts::Tally;
use common::{command, over, Verdict};
use std::process::ExitCode;

/// Calls, and panels that are drawn for each canvas and blur: of a sample, and of all.
const CASES: [[u64; 2]; 2] = [[1 << 17, 1 << 8], [1 << 22, 1 << 13]];

fn main() -> ExitCode {
    command::run("dearest", compare, exact, record::write)
}

fn ask(seed: u64, i: u64, lent: Lent, counts: &mut Counts) {
    let draw = &mut Draw::new(!seed, i);
    check(&Asked::of(seed, i), draw, lent, counts)
}

fn compare(all: bool, seed: u64) -> ExitCode {
    let [calls, panels] = CASES[all as usize];
    let choices = search::choices();
    println!(
        "seed {seed}: {calls} calls, {panels} panels for each of {choices} canvases and blurs"
    );
    let mut verdict = Verdict::default();
    let counts = over(calls, |i, counts: &mut Counts| {
        ask(seed, i, Lent::Guarded, counts)
    });
    counts.calls.judged("calls", CALLS, &mut verdict);
    very_blocks(&counts.blocks, &mut verdict);
    every_blur(all, &mut verdict);
    let tally = over(choices, |i, tally: &mut Tally| {
        search::search(seed, i, panels, tally)
    });
    tally.judged("panels in search of a dearer one", FOUND, &mut verdict);
    verdict.say()
}

/// One after the other, and no sort of them has to be met.
fn exact(count: u64, seed: u64) -> ExitCode {
    let mut counts = Counts::default();
    for i in 0..count {
        ask(seed, i, Lent::Exact, &mut counts);
    }
    let mut verdict = Verdict::default();
    counts.calls.watched("calls", CALLS, &mut verdict);
    very_blocks(&counts.blocks, &mut verdict);
    verdict.say()
}

/// Blurs by their bits, each once.
fn every_blur(all: bool, verdict: &mut Verdict) {
    let patterns = bits::patterns(all);
    let tally = over(patterns, |i, tally: &mut Tally| {
        bits::ask(bits::pattern(all, i), tally)
    });
    let (cases, accepted, differ) = (tally.cases, tally.accepted, tally.differ);
    println!("{cases} blurs by their bits, {accepted} accepted; {differ} differ");
    tally.show_first();
    verdict.check(cases == patterns && differ == 0);
}

/// Apart from what users may rest on: the bytes left are those that our contract names.
fn very_blocks(blocks: &Tally, verdict: &mut Verdict) {
    println!(
        "{} times the bytes left; {} differ",
        blocks.cases, blocks.differ
    );
    blocks.show_first();
    verdict.check(blocks.cases > 0 && blocks.differ == 0);
}
