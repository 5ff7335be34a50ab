//! Copies the same sources with the proved copies and with kash-ui's, and compares every pixel. kash-ui's straight
//! copies have them without top bytes.
//!
//!     copies [sample | all] [SEED]
//!     copies record FILE [SEED]
//!
//! `record` writes some of the Rust's answers, which crate `replay_copies` replays.
use std::process::ExitCode;

fn main() -> ExitCode {
    common::painters::run::<copies::case::Case>("copies", [1 << 19, 1 << 23])
}
