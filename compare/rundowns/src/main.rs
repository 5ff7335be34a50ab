//! Plays the same whole rundowns with the proved library and with kash-ui's painters behind the reading's
//! tests, and compares every answer, every pixel and every byte that has to stay; then once more with one
//! source's pixels changed, which may change nothing that the reading's stain does not hold. Each is
//! forecast on both sides, and played with just the scratch that the forecast names and with a byte less.
//! No panel may need more than ours says that the dearest of its blur does. Then each is played in steps,
//! with fresh pixels in between, twice, too.
//!
//!     rundowns [sample | all] [SEED]
//!     rundowns exact COUNT [SEED]
//!     rundowns record FILE [SEED]
//!
//! `exact` lends buffers of just their length, for a tool that watches memory; `record` writes some
//! answers, which crate `replay_rundowns` replays.
mod case;
mod check;
mod classes;
mod dearest;
mod faults;
mod forecast;
mod layers;
mod record;
mod steps;
mod top_bytes;

use case::{Case, Size};
use check::{check, Counts};
use classes::{CLASSES, PANELS};
use common::draw::Draw;
use common::lend::Lent;
use common::{command, over, Verdict};
use std::process::ExitCode;

/// Rundowns of a sample, and of all.
const CASES: [u64; 2] = [1 << 19, 1 << 23];

/// One of so many has 256 layers, one no pixels, and one is of 256 panels without pixels.
const FULL: u64 = 256;
const BARE: u64 = 16;
const GLAZED: u64 = 4096;

fn main() -> ExitCode {
    let sized = |all: bool, seed| compare(CASES[all as usize], seed);
    command::run("rundowns", sized, exact, record::write)
}

fn drawn(seed: u64, i: u64) -> Case {
    let size = match i {
        _ if i % GLAZED == 1 => Size::Glazed,
        _ if i.is_multiple_of(FULL) => Size::Full,
        _ if i % BARE == 2 => Size::Bare,
        _ => Size::Any,
    };
    Case::draw(&mut Draw::new(seed, i), size)
}

/// What the playings in steps are drawn by: numbers of their own, so that the rundowns stay what they were.
fn for_steps(seed: u64, i: u64) -> Draw {
    Draw::new(!seed, i)
}

fn compare(count: u64, seed: u64) -> ExitCode {
    println!("seed {seed}: {count} rundowns, each forecast, played twice, and twice in steps");
    let classes = [CLASSES, PANELS].concat();
    let counts = over(count, |i, counts: &mut Counts| {
        let (case, draw) = (drawn(seed, i), &mut for_steps(seed, i));
        check(case, draw, Lent::Guarded, counts, &classes)
    });
    let mut verdict = Verdict::default();
    counts.rundowns.judged("rundowns", &classes, &mut verdict);
    counts.steps.judged(&mut verdict);
    verdict.say()
}

/// One after the other, and no sort of them has to be met.
fn exact(count: u64, seed: u64) -> ExitCode {
    let mut counts = Counts::default();
    for i in 0..count {
        let (case, draw) = (drawn(seed, i), &mut for_steps(seed, i));
        check(case, draw, Lent::Exact, &mut counts, CLASSES);
    }
    let mut verdict = Verdict::default();
    counts.rundowns.watched("rundowns", CLASSES, &mut verdict);
    counts.steps.watched(&mut verdict);
    verdict.say()
}
