//! Runs the proved leaf functions beside kash-ui's on the same numbers.
//!
//!     leaves [sample | all] [SEED]
//!
//! `all` takes the functions of one float through every bit pattern, `sample` through the edges and
//! some random ones.
mod boxes;
mod colors;
mod reals;
mod rows;
mod tally;

use common::command::Command;
use common::Verdict;
use std::process::ExitCode;
use tally::Tally;

/// How much is run.
pub struct Plan {
    pub all: bool,
    pub seed: u64,
    /// Random cases a function.
    pub bulk: u64,
}

/// Prints a line for each function as it is done, and counts.
#[derive(Default)]
pub struct Report(Verdict);

impl Report {
    pub fn line(&mut self, name: &str, tally: Tally) {
        let open = match tally.open {
            0 => String::new(),
            n => format!(" ({n} where Rust may give either zero, compared as numbers)"),
        };
        println!(
            "{name:<20} {:>11} compared, {} differ{open}",
            tally.cases, tally.differ
        );
        if let Some(first) = &tally.first {
            println!("    {first}");
        }
        self.0.check(tally.cases > 0 && tally.differ == 0);
    }
}

fn plan() -> Option<Plan> {
    let Some(Command::Compare { all, seed }) = Command::read() else {
        return None;
    };
    let bulk = if all { 1 << 28 } else { 1 << 23 };
    Some(Plan { all, seed, bulk })
}

fn main() -> ExitCode {
    let Some(plan) = plan() else {
        eprintln!("usage: leaves [sample | all] [SEED]");
        return ExitCode::from(2);
    };
    println!(
        "seed {}, {}",
        plan.seed,
        if plan.all {
            "every bit pattern of one float"
        } else {
            "a sample"
        }
    );
    let mut report = Report::default();
    reals::compare(&plan, &mut report);
    colors::compare(&plan, &mut report);
    boxes::compare(&plan, &mut report);
    rows::compare(&plan, &mut report);
    report.0.say()
}
