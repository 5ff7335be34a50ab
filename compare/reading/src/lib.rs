//! The rules of a rundown, read from 01's page alone: "A layer's block", "Causes and their numbers" and
//! "Boxes and the stain"; and of 02's requests the forecast, One, tables that suit their bezel, Two,
//! ascending blocks, Four, the dearest panel, Five, and playing in steps, Seven. kash-ui has no such part, so
//! this is what the proved functions are compared with. It is written as one would write it in Rust, and shares
//! nothing with them.
mod block;
mod boxes;
mod dearest;
mod forecast;
mod layer;
mod play;
mod rundown;
mod stain;
mod steps;

pub use block::{check_of, checked, judge, judge_body, priority_of, Body};
pub use boxes::{scale_of, Area};
pub use dearest::{dearest, dearest_need};
pub use forecast::Forecast;
pub use layer::{Glass, Kind, Layer, Paint, Rect, Rgba};
pub use play::Show;
pub use rundown::{add, remove};
pub use stain::{Effect, Stain};
pub use steps::last_painted;

/// Bytes of a block, and of a block without its check.
pub const BLOCK: usize = 512;
pub const BODY: usize = 508;

/// The most blocks of a rundown.
pub const MOST: usize = 256;

/// Why something is refused, by the number in 01's table, which 02's requests join.
#[derive(Clone, Copy, PartialEq, Eq, PartialOrd, Ord, Debug)]
pub enum Cause {
    Canvas = 1,
    Sources = 2,
    Rundown = 3,
    Check = 4,
    Form = 5,
    Float = 6,
    Integer = 7,
    Priority = 8,
    Source = 9,
    Frame = 10,
    Scratch = 11,
    Room = 12,
    Absent = 13,
    /// Tested in a block after 7 and before 9.
    Bend = 15,
    /// There is no next layer: none above the last painted priority. Tested last in a step.
    Next = 16,
}

/// The count of blocks or of layers, a need, or the priority that was painted; or the cause and what stands beside it.
pub type Answer = Result<usize, (Cause, usize)>;

/// The answer as C gets it: the cause's number above, what stands beside it (or the number) below.
pub fn packed(answer: Answer) -> u64 {
    match answer {
        Ok(number) => number as u64,
        Err((cause, beside)) => (cause as u64) << 32 | beside as u64,
    }
}
