//! Makes the same box passes and paints the same secure frames and glass panels with the proved functions
//! and with kash-ui's, and compares every byte and every pixel.
//!
//!     panels [sample | all] [SEED]
//!     panels record FILE [SEED]
//!
//! `record` writes some of the Rust's answers, which crate `replay_panels` replays.
use std::process::ExitCode;

fn main() -> ExitCode {
    common::painters::run::<panels::case::Case>("panels", [1 << 17, 1 << 20])
}
