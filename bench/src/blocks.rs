//! ns a block for the tests of a rundown, for adding and removing in a full one, and for its forecast.
//! There is no kash-ui for this part: the Rust is the reading in `compare/reading`.
use crate::clock::{head, least, least_changing, line, Change, Goal};
use ours::surface::{self, BOXES};
use reading::{checked, Answer, Body, BLOCK, BODY, MOST};
use std::hint::black_box;

const GOAL: Goal = Goal::Ratio(1.5);

/// For a rundown that has to be put in order first, which moves nearly every block.
const REVERSED: Goal = Goal::Ratio(2.0);

/// For the tests of blocks, which are read where they lie.
const IN_PLACE: Goal = Goal::Ratio(1.0);

/// A block with a byte on either side: where one stands behind the other, each has an odd place.
const APART: usize = BLOCK + 2;

/// The reading's functions behind calls like the archive's.
mod far {
    use super::{Answer, Body, BLOCK};

    #[inline(never)]
    pub fn judge(block: &[u8; BLOCK]) -> bool {
        reading::judge(block).is_ok()
    }

    #[inline(never)]
    pub fn judge_at(buffer: &[u8], at: usize) -> bool {
        let block = buffer.get(at..).and_then(|bytes| bytes.first_chunk());
        block.is_some_and(|block| reading::judge(block).is_ok())
    }

    #[inline(never)]
    pub fn add(buffer: &mut [u8], count: usize, new: &Body) -> Answer {
        reading::add(buffer, count, new)
    }

    #[inline(never)]
    pub fn remove(buffer: &mut [u8], count: usize, priority: u16) -> Answer {
        reading::remove(buffer, count, priority)
    }

    #[inline(never)]
    pub fn forecast(show: &reading::Show) -> Result<reading::Forecast, (reading::Cause, usize)> {
        show.forecast()
    }
}

pub fn table() {
    head("ns a block");
    judged("256 blocks, one by one", body);
    judged("256 panels, whose tables are read, one by one", panel);
    placed("256 blocks of one buffer, at odd places", body);
    placed("256 panels of one buffer, at odd places", panel);
    tested("256 held: all tested, cause 12", body);
    tested("256 panels held: all tested, cause 12", panel);
    changes();
    forecasts("256 layers, all kinds", body);
    forecasts("256 panels", panel);
}

/// A rundown of 256 of these.
fn rundown_of(body: fn(u16) -> Body) -> Vec<u8> {
    (0..MOST as u16).flat_map(|p| checked(&body(p))).collect()
}

/// On a small canvas and on the largest: every layer has a box on both.
fn forecasts(what: &str, body: fn(u16) -> Body) {
    let rundown = rundown_of(body);
    for side in [16, 4096] {
        let table = &[1920, 1080];
        let lent = surface::Show {
            rundown: &rundown,
            width: side,
            height: side,
            table,
            pool: &[],
        };
        let read = reading::Show {
            rundown: &rundown,
            width: side,
            height: side,
            canvas: 0,
            table,
            pool: 0,
            scratch: [0, 0],
        };
        let (mut boxes, mut totals) = ([0; BOXES], [0; 2]);
        let expected = read.forecast().expect("it is counted");
        let times = least(
            MOST,
            || {
                let answer = surface::forecast(black_box(lent), &mut boxes, &mut totals);
                assert_eq!((answer, totals[1]), (MOST as u64, expected.cells));
            },
            || {
                let forecast = far::forecast(black_box(&read)).expect("it is counted");
                assert_eq!((forecast.layers, forecast.cells), (MOST, expected.cells));
            },
        );
        line("forecast", &format!("{what}, {side} x {side}"), times, GOAL);
    }
}

fn judged(what: &str, body: fn(u16) -> Body) {
    let held = rundown_of(body);
    let blocks = held.as_chunks::<BLOCK>().0;
    let times = least(
        MOST,
        || {
            assert!(blocks
                .iter()
                .all(|b| ours::blocks::judge(black_box(b)) == 0))
        },
        || assert!(blocks.iter().all(|b| far::judge(black_box(b)))),
    );
    line("judge", what, times, IN_PLACE);
}

fn placed(what: &str, body: fn(u16) -> Body) {
    let with_bytes = |p| [&[0xFF], &checked(&body(p))[..], &[0xFF]].concat();
    let held: Vec<u8> = (0..MOST as u16).flat_map(with_bytes).collect();
    let places = || (0..MOST).map(|i| APART * i + 1);
    let times = least(
        MOST,
        || assert!(places().all(|at| ours::blocks::judge_at(black_box(&held), at) == 0)),
        || assert!(places().all(|at| far::judge_at(black_box(&held), at))),
    );
    line("judge_at", what, times, IN_PLACE);
}

/// What is to be added is tested, too: one block more.
fn tested(what: &str, body: fn(u16) -> Body) {
    let held = rundown_of(body);
    let (mut mine, mut theirs) = (held.clone(), held);
    let new = body(1000);
    let full = 12 << 32 | MOST as u64;
    let times = least(
        MOST,
        || assert_eq!(surface::add(black_box(&mut mine), MOST, &new), full),
        || assert!(far::add(black_box(&mut theirs), MOST, &new).is_err()),
    );
    line("add", what, times, IN_PLACE);
}

/// A block goes and comes back: a rundown in order is as before, and one that comes in reversed is in order.
fn changes() {
    let held = rundown_of(body);
    let same = &Change {
        from: held.clone(),
        to: held.clone(),
    };
    changed("256 held, the first", same, 0, GOAL);
    changed("256 held, the middle one", same, 128, GOAL);
    changed("256 held, the last", same, 255, GOAL);
    let blocks = held.as_chunks::<BLOCK>().0.iter();
    let from = blocks.rev().flatten().copied().collect();
    let ordered = &Change { from, to: held };
    changed("256 held and reversed", ordered, 128, REVERSED);
}

fn changed(what: &str, change: &Change<Vec<u8>>, priority: u16, goal: Goal) {
    let there = body(priority);
    let times = least_changing(
        2 * MOST,
        change,
        |mine| {
            assert_eq!(surface::remove(black_box(mine), MOST, priority), 255);
            assert_eq!(surface::add(black_box(mine), 255, &there), 256);
        },
        |theirs| {
            assert_eq!(far::remove(black_box(theirs), MOST, priority), Ok(255));
            assert_eq!(far::add(black_box(theirs), 255, &there), Ok(256));
        },
    );
    line("remove, then add", what, times, goal);
}

/// A layer of the kind that the priority's turn brings.
fn body(priority: u16) -> Body {
    body_of(1 + (priority % 8) as u8, priority)
}

/// A glass panel; its bezel allows twice its largest entry.
fn panel(priority: u16) -> Body {
    body_of(4, priority)
}

/// A layer of this kind, of a canvas of 1920 × 1080, that reaches into its first 16 columns and rows.
fn body_of(kind: u8, priority: u16) -> Body {
    let mut body = [0; BODY];
    body[0] = kind;
    body[2..4].copy_from_slice(&priority.to_le_bytes());
    let mut put = |at: usize, word: u32| body[at..at + 4].copy_from_slice(&word.to_le_bytes());
    let float = |v: f32| v.to_bits();
    [0, 0, 1920, 1080]
        .iter()
        .enumerate()
        .for_each(|(i, v)| put(236 + 4 * i, *v));
    if !matches!(kind, 5 | 8) {
        let rect = [4.5, 3.0, 1440.0, 810.25];
        rect.iter()
            .enumerate()
            .for_each(|(i, v)| put(32 + 4 * i, float(*v)));
    }
    if !matches!(kind, 7 | 8) {
        put(48, float(24.0));
    }
    match kind {
        1 => {
            put(28, 2 << 8);
            [56, 252].iter().for_each(|at| put(*at, 0x80FF_4020));
            (0..4).for_each(|i| put(256 + 4 * i, float(100.0 * i as f32)));
        }
        2 => put(100, float(2.5)),
        3 => put(52, float(30.0)),
        4 => {
            put(52, float(20.0));
            put(68, float(40.0));
            (0..32).for_each(|i| put(104 + 4 * i, float(32.0 - i as f32)));
        }
        5 => (0..2).for_each(|i| put(76 + 4 * i, 200)),
        6 | 7 => put(84, float(0.75)),
        _ => (0..3).for_each(|i| put(16 + 4 * i, 16)),
    }
    body
}
