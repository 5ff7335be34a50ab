//! Judges the same blocks, alone and at any place of a buffer, and adds and removes the same ones, with the
//! proved functions and with the reading in `../reading`, and compares every answer and every byte that is
//! settled. Both have to accept the tables that kash-ui works out.
//!
//!     blocks [sample | all] [SEED]
//!     blocks exact COUNT [SEED]
//!     blocks record FILE [SEED]
//!
//! `exact` judges blocks at their places, adds and removes, in buffers of just their length, for a tool that
//! watches memory; `record` writes some of the reading's answers, which crate `replay_blocks` replays.
mod calls;
mod classes;
mod many;
mod one;
mod place;
mod record;
mod rundown;
mod tables;

use calls::CALLS;
use classes::{BLOCKS, PLACES, TABLES};
use common::draw::Draw;
use common::sorts::Tally;
use common::{command, over, Verdict};
use rundown::{Rundown, Size, GUARD};
use std::process::ExitCode;

/// Blocks, kash-ui's tables, blocks that are placed, small rundowns and full ones: of a sample, and of all.
const CASES: [[u64; 5]; 2] = [
    [1 << 20, 1 << 16, 1 << 17, 1 << 17, 1 << 9],
    [1 << 24, 1 << 20, 1 << 21, 1 << 21, 1 << 13],
];

fn main() -> ExitCode {
    let sized = |all: bool, seed| compare(CASES[all as usize], seed);
    command::run("blocks", sized, exact, record::write)
}

fn compare([blocks, tables, placed, small, full]: [u64; 5], seed: u64) -> ExitCode {
    println!(
        "seed {seed}: {blocks} blocks, {tables} tables, {placed} blocks in two buffers each, {small} small rundowns, {full} full ones"
    );
    let mut verdict = Verdict::default();
    let mut tally = over(blocks, |i, tally: &mut Tally| {
        one::check(&one::Case::draw(&mut Draw::new(seed, i)), tally, BLOCKS)
    });
    one::every_bit(seed, &mut tally, BLOCKS);
    tally.judged("blocks", BLOCKS, &mut verdict);

    let tally = over(tables, |i, tally: &mut Tally| {
        tables::check(&mut Draw::new(seed, blocks + i), tally, TABLES)
    });
    tally.judged("tables of kash-ui's own", TABLES, &mut verdict);

    let (count, wrong) = one::lengths(seed);
    println!("{count} buffers of other lengths than a block's, {wrong} differ");
    verdict.check(wrong == 0);

    let tally = over(placed, |i, tally: &mut Tally| {
        let draw = &mut Draw::new(seed, blocks + tables + i);
        place::sequence(draw, |p| place::check(p, tally, PLACES))
    });
    tally.judged("places", PLACES, &mut verdict);

    let tally = over(small + full, |i, tally: &mut Tally| {
        // the full ones spread over the processors
        let every = (small + full) / full;
        let size = if i % every == 0 {
            Size::Full
        } else {
            Size::Small
        };
        let draw = &mut Draw::new(!seed, i);
        let rundown = Rundown::draw(draw, size, GUARD);
        many::sequence(draw, rundown, |r, step| many::check(r, step, tally, CALLS))
    });
    tally.judged("calls of add and remove", CALLS, &mut verdict);
    verdict.say()
}

/// One after the other, one rundown of 64 a full one, and no sort of them has to be met.
fn exact(count: u64, seed: u64) -> ExitCode {
    let (mut places, mut calls) = (Tally::default(), Tally::default());
    for i in 0..count {
        place::sequence(&mut Draw::new(seed, i), |p| {
            place::check(p, &mut places, PLACES)
        });
        let draw = &mut Draw::new(!seed, i);
        let size = if i % 64 == 0 { Size::Full } else { Size::Small };
        let rundown = Rundown::draw(draw, size, 0);
        many::sequence(draw, rundown, |r, step| {
            many::check(r, step, &mut calls, CALLS)
        });
    }
    let mut verdict = Verdict::default();
    places.watched("places", PLACES, &mut verdict);
    calls.watched("calls of add and remove", CALLS, &mut verdict);
    verdict.say()
}
