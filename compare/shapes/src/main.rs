//! Paints the same layers with the proved painters and with kash-ui's, and compares every pixel.
//!
//!     shapes [sample | all] [SEED]
//!     shapes record FILE [SEED]
//!
//! `record` writes some of the Rust's answers, which crate `replay_shapes` replays.
use std::process::ExitCode;

fn main() -> ExitCode {
    common::painters::run::<shapes::case::Case>("shapes", [1 << 19, 1 << 23])
}
