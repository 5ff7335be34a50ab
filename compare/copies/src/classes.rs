//! The edges that a case may lie at, each told from its numbers; where a straight copy meets top bytes, from what
//! kash-ui does with these numbers.
use crate::case::{Case, Painter};
use common::edges::{
    any, covered_by_canvas, in_strips, minus_zero, of_canvas, of_clip, of_radius, of_rect, outside,
    sides, Class,
};
use common::straight::Does;

pub fn all() -> Vec<Class<Case>> {
    let shared = [of_canvas(), of_clip(), of_rect(), of_radius()].concat();
    shared.into_iter().chain(OWN.iter().copied()).collect()
}

const OWN: &[Class<Case>] = &[
    ("radius 0.3", |c| c.r == 0.3),
    ("source of one pixel", |c| c.from.w * c.from.h == 1),
    ("source of one column", |c| c.from.w == 1 && c.from.h > 1),
    ("source of one row", |c| c.from.w > 1 && c.from.h == 1),
    ("source wider than the canvas", |c| c.from.w > c.onto.w),
    ("source with a side of 4096", |c| {
        c.from.w.max(c.from.h) == 4096
    }),
    ("source with a top byte", |c| c.from.px.first >> 24 != 0),
    ("straight: wholly outside", |c| straight(c, outside)),
    ("straight: partly outside", |c| {
        straight(c, |c| !outside(c) && !covered_by_canvas(c))
    }),
    ("straight: within the canvas", |c| {
        straight(c, covered_by_canvas)
    }),
    ("straight: narrower than two corners", |c| {
        straight(c, |c| c.from.w as f32 <= 2.0 * span(c) - 1.0)
    }),
    ("straight: wider than two corners", |c| {
        straight(c, |c| c.from.w as f32 > 2.0 * span(c))
    }),
    ("straight: rows between the corners", |c| {
        straight(c, |c| c.from.h as f32 > 2.0 * span(c))
    }),
    ("straight: exact, radius 0", |c| {
        straight(c, |c| c.alpha == 255 && c.dim == 0 && c.r == 0.0)
    }),
    ("straight: exact but for the corners", |c| {
        straight(c, |c| c.alpha == 255 && c.dim == 0 && c.r > 0.5)
    }),
    ("straight: exact, clears a top byte of its source", |c| {
        straight(c, |c| c.alpha == 255 && clears(c) && c.r == 0.0)
    }),
    (
        "straight: exact but for the corners, clears a top byte of its source",
        |c| straight(c, |c| c.alpha == 255 && clears(c) && c.r > 0.5),
    ),
    (
        "straight: alpha above 255, clears a top byte of its source",
        |c| straight(c, |c| c.alpha > 255 && clears(c)),
    ),
    ("straight: coverage 0 leaves an old top byte", |c| {
        straight(c, |c| c.alpha >= 255 && over_top_byte(c, Does::Leaves))
    }),
    (
        "straight: alpha 0 leaves an old top byte in a corner",
        |c| straight(c, |c| c.alpha == 0 && over_top_byte(c, Does::Leaves)),
    ),
    ("straight: alpha 0 clears an old top byte", |c| {
        straight(c, |c| c.alpha == 0 && over_top_byte(c, Does::Writes))
    }),
    ("straight: stored darker", |c| {
        straight(c, |c| c.alpha >= 255 && c.dim > 0)
    }),
    ("straight: mixed", |c| {
        straight(c, |c| c.alpha < 255 && c.dim == 0)
    }),
    ("straight: mixed darker", |c| {
        straight(c, |c| c.alpha < 255 && c.dim > 0)
    }),
    ("straight: alpha 0", |c| straight(c, |c| c.alpha == 0)),
    ("straight: alpha 1", |c| straight(c, |c| c.alpha == 1)),
    ("straight: alpha 127", |c| straight(c, |c| c.alpha == 127)),
    ("straight: alpha 254", |c| straight(c, |c| c.alpha == 254)),
    ("straight: alpha 255", |c| straight(c, |c| c.alpha == 255)),
    ("straight: alpha above 255", |c| {
        straight(c, |c| c.alpha > 255)
    }),
    ("straight: dim 0", |c| straight(c, |c| c.dim == 0)),
    ("straight: dim 1", |c| straight(c, |c| c.dim == 1)),
    ("straight: dim 127", |c| straight(c, |c| c.dim == 127)),
    ("straight: dim 254", |c| straight(c, |c| c.dim == 254)),
    ("straight: dim 255", |c| straight(c, |c| c.dim == 255)),
    ("straight: dim above 255", |c| straight(c, |c| c.dim > 255)),
    ("scaled: onto less than a pixel", |c| {
        scaled(c, |c| any(sides(c), |s| s < 1.0))
    }),
    ("scaled: onto its own size", |c| {
        scaled(c, |c| factors(c) == [1.0, 1.0])
    }),
    ("scaled: to half", |c| {
        scaled(c, |c| factors(c) == [0.5, 0.5])
    }),
    ("scaled: to double", |c| {
        scaled(c, |c| factors(c) == [2.0, 2.0])
    }),
    ("scaled: to less than a tenth", |c| {
        scaled(c, |c| any(factors(c), |f| f < 0.1))
    }),
    ("scaled: to more than 50 times", |c| {
        scaled(c, |c| any(factors(c), |f| f > 50.0))
    }),
    ("scaled: wholly outside", |c| scaled(c, outside)),
    ("scaled: partly outside", |c| {
        scaled(c, |c| !outside(c) && !covered_by_canvas(c))
    }),
    ("scaled: in strips", |c| {
        scaled(c, |c| in_strips(c) && c.part > 0.0)
    }),
    ("scaled: alpha 0", |c| scaled(c, |c| c.part == 0.0)),
    ("scaled: alpha -0", |c| scaled(c, |c| minus_zero(c.part))),
    ("scaled: alpha below 1 / 256", |c| {
        scaled(c, |c| 0.0 < c.part && c.part < 1.0 / 256.0)
    }),
    ("scaled: alpha 1 / 256", |c| {
        scaled(c, |c| c.part == 1.0 / 256.0)
    }),
    ("scaled: alpha between", |c| {
        scaled(c, |c| 1.0 / 256.0 < c.part && c.part < 1.0)
    }),
    ("scaled: alpha 1", |c| scaled(c, |c| c.part == 1.0)),
    ("genie: t 0", |c| genie(c, |c| c.t == 0.0)),
    ("genie: t -0", |c| genie(c, |c| minus_zero(c.t))),
    ("genie: t minute", |c| {
        genie(c, |c| 0.0 < c.t && c.t < 0.000_01)
    }),
    ("genie: t 0.5", |c| genie(c, |c| c.t == 0.5)),
    ("genie: t 1", |c| genie(c, |c| c.t == 1.0)),
    ("genie: in spans", |c| {
        genie(c, |c| in_strips(c) && c.t > 0.0)
    }),
    ("genie: source of one row", |c| {
        genie(c, |c| c.t > 0.0 && c.from.h == 1)
    }),
    ("genie: from less than a pixel", |c| {
        genie(c, |c| c.t > 0.0 && any(sides(c), |s| s < 1.0))
    }),
    ("genie: target above the canvas", |c| {
        genie(c, |c| c.t > 0.0 && -1.0 < c.target[1] && c.target[1] < 0.0)
    }),
    ("genie: alpha 0", |c| {
        genie(c, |c| c.t > 0.0 && c.part == 0.0)
    }),
    ("genie: alpha below 1 / 256", |c| {
        genie(c, |c| c.t > 0.0 && 0.0 < c.part && c.part < 1.0 / 256.0)
    }),
    ("genie: alpha 1", |c| {
        genie(c, |c| c.t > 0.0 && c.part == 1.0)
    }),
];

fn straight(c: &Case, test: impl Fn(&Case) -> bool) -> bool {
    c.painter == Painter::Straight && test(c)
}

fn scaled(c: &Case, test: impl Fn(&Case) -> bool) -> bool {
    c.painter == Painter::Scaled && test(c)
}

fn genie(c: &Case, test: impl Fn(&Case) -> bool) -> bool {
    c.painter == Painter::Genie && test(c)
}

/// Whether a straight copy clears a top byte of its source, in a pixel that it writes.
fn clears(c: &Case) -> bool {
    c.alpha >= 255 && c.dim == 0 && c.does().any(|(_, does)| does == Does::Clears)
}

/// Whether a straight copy does so with a pixel that had a top byte.
fn over_top_byte(c: &Case, so: Does) -> bool {
    c.does().any(|(old, does)| old >> 24 != 0 && does == so)
}

/// The columns of a corner of a straight copy.
fn span(c: &Case) -> f32 {
    let [w, h] = sides(c);
    c.r.min(w * 0.5).min(h * 0.5).ceil() + 1.0
}

/// How many times its size a source becomes.
fn factors(c: &Case) -> [f32; 2] {
    let [w, h] = sides(c);
    [w / c.from.w as f32, h / c.from.h as f32]
}
