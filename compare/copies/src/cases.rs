//! Seeded copies whose numbers lie in the ranges that a rundown accepts, often at their edges.
use crate::case::{Case, From, Painter};
use common::draw::Draw;
use common::numbers::{self, *};
use ours::Onto;

/// The most that an alpha is here. A rundown has at most 255; from 2 ^ 24 on the Rust's product wraps.
const STRONGEST: u32 = 0xFFFF;

pub fn case(draw: &mut Draw, painter: Painter, canvas: Canvas) -> Case {
    let size = measure(draw, canvas);
    let from = source(draw, canvas);
    copy(draw, painter, size, from)
}

/// A copy of this source onto a canvas of this size.
pub fn copy(draw: &mut Draw, painter: Painter, (w, h): (usize, usize), from: From) -> Case {
    let (sw, sh) = (from.w as f32, from.h as f32);
    let rect = match painter {
        Painter::Straight => [along(draw, w, from.w), along(draw, h, from.h), sw, sh],
        Painter::Scaled | Painter::Genie => stretched(draw, w, h, &from),
    };
    let r = match draw.below(8) {
        0 => 0.3,
        _ => radius(draw, [rect[2], rect[3]]),
    };
    Case {
        painter,
        onto: Onto {
            w,
            h,
            clip: clip(draw, w as i32, h as i32),
        },
        from,
        rect,
        r,
        alpha: alpha(draw),
        dim: dim(draw),
        part: part(draw),
        before: Pixels::draw(draw),
        target: [place(draw, w), place(draw, h)],
        t: way(draw),
    }
}

fn source(draw: &mut Draw, canvas: Canvas) -> From {
    let (w, h) = match (canvas, draw.below(8)) {
        (_, 0) => (1, 1),
        (Canvas::Longest, 1) => (4096, 1),
        (Canvas::Longest, 2) => (1, 4096),
        (Canvas::Recorded, 1) => (up_to(draw, 64), 1),
        (Canvas::Recorded, 2) => (1, up_to(draw, 64)),
        (Canvas::Recorded, _) => (up_to(draw, 8), up_to(draw, 8)),
        (_, 1) => (up_to(draw, 70), 1),
        (_, 2) => (1, up_to(draw, 24)),
        (_, 3) => (up_to(draw, 3), up_to(draw, 12)),
        _ => (up_to(draw, 12), up_to(draw, 12)),
    };
    From {
        w,
        h,
        len: w * h,
        px: Pixels::draw(draw),
    }
}

/// A whole place for n pixels on an axis of which the canvas has m.
fn along(draw: &mut Draw, m: usize, n: usize) -> f32 {
    let (m, n) = (m as i32, n as i32);
    let place = match draw.below(16) {
        0..=1 => 0,
        2..=3 => m - n,
        4 => [-n, m, -n + 1, m - 1][draw.below(4) as usize],
        5 => [-16384, 16384, -n - 1, m + 1][draw.below(4) as usize],
        _ => draw.below((m + n) as u64) as i32 - n,
    };
    place as f32
}

/// A rectangle for a source to be stretched over: any, or near the source's own size, half or many
/// times of it.
fn stretched(draw: &mut Draw, w: usize, h: usize, from: &From) -> [f32; 4] {
    let (sw, sh) = (from.w as f32, from.h as f32);
    let [x, y, rw, rh] = rect(draw, w, h);
    let factor = match draw.below(8) {
        0 => 1.0,
        1 => 0.5,
        2 => 2.0,
        3 => 0.25 + 4.0 * unit(draw),
        _ => return [x, y, rw, rh],
    };
    [x, y, (sw * factor).min(FAR), (sh * factor).min(FAR)]
}

fn alpha(draw: &mut Draw) -> u32 {
    match draw.below(8) {
        0..=2 => 255,
        3..=4 => [0, 1, 127, 128, 254, 255][draw.below(6) as usize],
        5 => [256, 257, 300, STRONGEST][draw.below(4) as usize],
        _ => draw.byte() as u32,
    }
}

fn dim(draw: &mut Draw) -> u32 {
    match draw.below(8) {
        0..=2 => 0,
        3..=4 => [0, 1, 127, 128, 254, 255][draw.below(6) as usize],
        5 => [256, 257, u32::MAX][draw.below(3) as usize],
        _ => draw.byte() as u32,
    }
}

/// From 0 to 1.
fn part(draw: &mut Draw) -> f32 {
    match draw.below(8) {
        0..=2 => 1.0,
        3 => pick(draw, &[0.0, -0.0, 0.5, 1.0 / 256.0, 255.0 / 256.0]),
        4 => {
            let near = pick(draw, &[1.0 / 256.0, 0.5, 255.0 / 256.0]);
            beside(draw, near)
        }
        5 => minute(draw),
        _ => unit(draw),
    }
}

/// How far a genie copy is on its way.
fn way(draw: &mut Draw) -> f32 {
    match draw.below(8) {
        0 => pick(draw, &[0.0, -0.0]),
        1 => minute(draw),
        2 => pick(draw, &[0.45, 0.5, 0.55, 1.0]),
        3 => 1.0,
        _ => unit(draw),
    }
}

pub fn accepted(case: &Case) -> bool {
    numbers::accepted(&case.onto, case.rect, case.r)
        && case.alpha <= STRONGEST
        && within(case.part, 0.0, 1.0)
        && within(case.t, 0.0, 1.0)
        && case.target.iter().all(|v| within(*v, -FAR, FAR))
}
