//! ns a call for the dearest panel, whose block is written each time unless it is refused. There is no kash-ui for this
//! part: the Rust is the reading in `compare/reading`.
use crate::clock::{head, least, line, Goal};
use ours::surface;
use reading::{packed, BLOCK};
use std::hint::black_box;

/// At every size under a microsecond.
const GOAL: Goal = Goal::Time(1000.0, "ns");

/// So many are timed together.
const CALLS: usize = 256;

/// The reading's function behind a call like the archive's.
mod far {
    use super::BLOCK;
    use reading::Answer;

    #[inline(never)]
    pub fn dearest(width: u32, height: u32, blur: f32, block: &mut [u8; BLOCK]) -> Answer {
        reading::dearest(width, height, blur, block)
    }
}

pub fn table() {
    head("ns a call");
    asked("1 x 1, blur 0", 1, 1, 0.0);
    asked("1920 x 1080, blur 9", 1920, 1080, 9.0);
    asked("4096 x 4096, blur 0", 4096, 4096, 0.0);
    asked("4096 x 4096, blur 64", 4096, 4096, 64.0);
    asked("4097 x 1, refused", 4097, 1, 0.0);
    asked("1920 x 1080, a NaN, refused", 1920, 1080, f32::NAN);
}

fn asked(what: &str, width: u32, height: u32, blur: f32) {
    let (mut mine, mut theirs) = ([0; BLOCK], [0; BLOCK]);
    let answer = reading::dearest(width, height, blur, &mut [0; BLOCK]);
    let times = least(
        CALLS,
        || {
            for _ in 0..CALLS {
                let ours = surface::dearest(black_box(width), height, blur, black_box(&mut mine));
                assert_eq!(ours, packed(answer));
            }
        },
        || {
            for _ in 0..CALLS {
                let read = far::dearest(black_box(width), height, blur, black_box(&mut theirs));
                assert_eq!(read, answer);
            }
        },
    );
    assert_eq!(mine, theirs);
    line("dearest", what, times, GOAL);
}
