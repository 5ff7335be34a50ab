//! The edges that a case may lie at, each told from its numbers.
use crate::case::{Case, Painter};
use crate::cases::INFINITE_SCALE;
use common::edges::{any, in_strips, of_canvas, of_clip, of_radius, of_rect, sides, Class};

pub fn all() -> Vec<Class<Case>> {
    let shared = [of_canvas(), of_clip(), of_rect(), of_radius()].concat();
    shared.into_iter().chain(OWN.iter().copied()).collect()
}

const OWN: &[Class<Case>] = &[
    ("alpha 0", |c| alpha(c) == 0),
    ("alpha 1", |c| alpha(c) == 1),
    ("alpha 254", |c| alpha(c) == 254),
    ("alpha 255", |c| alpha(c) == 255),
    ("fill: one colour", |c| paint(c, 0)),
    ("fill: down the rows", |c| paint(c, 1)),
    ("fill: along a line", |c| paint(c, 2)),
    ("fill: out from a centre", |c| paint(c, 3)),
    ("fill: a kind that is none", |c| {
        c.painter == Painter::Fill && c.paint.kind > 3
    }),
    ("fill: rows from y0 to y0", |c| {
        paint(c, 1) && c.paint.numbers[0] == c.paint.numbers[1]
    }),
    ("fill: rows from y0 up", |c| {
        paint(c, 1) && c.paint.numbers[0] > c.paint.numbers[1]
    }),
    ("fill: line of no length", |c| {
        paint(c, 2) && c.paint.numbers[..2] == c.paint.numbers[2..]
    }),
    ("fill: centre with radius 0", |c| {
        paint(c, 3) && c.paint.numbers[2] == 0.0
    }),
    ("stroke: width 0", |c| stroke(c, |s| s == 0.0)),
    ("stroke: width below 1", |c| {
        stroke(c, |s| 0.0 < s && s < 1.0)
    }),
    ("stroke: width above half a side", |c| {
        stroke(c, |s| any(sides(c), |l| s > l * 0.5))
    }),
    ("stroke: width 256", |c| stroke(c, |s| s == 256.0)),
    ("shadow: blur 0", |c| shadow(c, |b| b == 0.0)),
    ("shadow: the least blur", |c| {
        shadow(c, |b| b.to_bits() == 1)
    }),
    ("shadow: 96 / (2 blur) infinite", |c| {
        shadow(c, |b| b > 0.0 && b.to_bits() <= INFINITE_SCALE)
    }),
    ("shadow: 96 / (2 blur) just finite", |c| {
        shadow(c, |b| b.to_bits() == INFINITE_SCALE + 1)
    }),
    ("shadow: NaN met", nan_met),
    ("shadow: blur 0.4 to 0.6", |c| {
        shadow(c, |b| 0.4 < b && b < 0.6)
    }),
    ("shadow: blur 24", |c| shadow(c, |b| b == 24.0)),
    ("shadow: blur 256", |c| shadow(c, |b| b == 256.0)),
    ("shadow: in strips", |c| {
        shadow(c, |b| b >= 0.4) && in_strips(c) && alpha(c) > 0
    }),
    ("shadow: skip_inside 0", |c| {
        c.painter == Painter::Shadow && c.skip_inside == 0
    }),
    ("shadow: skip_inside 1", |c| {
        c.painter == Painter::Shadow && c.skip_inside == 1
    }),
    ("shadow: skip_inside above 1", |c| {
        c.painter == Painter::Shadow && c.skip_inside > 1
    }),
];

fn alpha(c: &Case) -> u32 {
    c.paint.colors[0] >> 24
}

fn paint(c: &Case, kind: u32) -> bool {
    c.painter == Painter::Fill && c.paint.kind == kind
}

fn stroke(c: &Case, test: impl Fn(f32) -> bool) -> bool {
    c.painter == Painter::Stroke && test(c.size)
}

fn shadow(c: &Case, test: impl Fn(f32) -> bool) -> bool {
    c.painter == Painter::Shadow && test(c.size)
}

/// A pixel under the clip lies at the distance -blur, and 0 × infinity is no number.
fn nan_met(c: &Case) -> bool {
    let infinite = shadow(c, |b| b > 0.0 && b.to_bits() <= INFINITE_SCALE);
    if !infinite || alpha(c) == 0 || c.at.r != 0.0 {
        return false;
    }
    let [x0, y0, x1, y1] = c.at.clip;
    let [x, y, w, h] = c.at.rect;
    let [n, m] = [c.at.w as f32, c.at.h as f32];
    let distance =
        |k: i32, at: f32, side: f32| (k as f32 + 0.5 - (at + side * 0.5)).abs() - side * 0.5;
    let at_blur = |lo: i32, hi: i32, n: f32, at: f32, side: f32| {
        (lo.max(0)..hi.min(n as i32)).any(|k| distance(k, at, side) == -c.size)
    };
    at_blur(x0, x1, n, x, w) && at_blur(y0, y1, m, y, h)
}
