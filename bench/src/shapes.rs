//! ns a pixel of the canvas for the painters of shapes.
use crate::clock::head_beside;
use crate::pixman::{work, Job};
use crate::sides::{Sides, HEIGHT, WIDTH};
use kash::color::Color;
use kash::geom::{Pt, Rect};
use kash::gfx;
use ours::shapes::{self, Paint, Place};
use std::hint::black_box;

const OPAQUE: [u32; 2] = [0xFFC8_6432, 0xFF1E_50A0];
const TRANSLUCENT: [u32; 2] = [0x80C8_6432, 0x501E_50A0];

pub fn table() {
    head_beside("ns a pixel", "pixman");
    let mut sides = Sides::new();
    fills(&mut sides, "opaque", OPAQUE, [0.85, 0.8, 0.8, 0.5]);
    fills(&mut sides, "translucent", TRANSLUCENT, [0.5, 0.8, 0.8, 0.5]);
    round_fills(&mut sides);
    strokes(&mut sides);
    let color = TRANSLUCENT[0];
    for skip in [false, true] {
        let [x, y, w, h] = [160.0, 140.0, 1600.0, 800.0];
        let at = if skip { ", skip_inside" } else { "" };
        sides.line_beside(
            "shadow_rrect",
            &format!("blur 24, radius 24, 1600 x 800{at}"),
            1.0,
            |px| {
                let at = place([x, y, w, h], 24.0);
                shapes::shadow(px, at, 24.0, black_box(color), skip as u32)
            },
            |c| {
                let rect = Rect::new(x, y, w, h);
                c.shadow_rrect(rect, 24.0, 24.0, rgba(black_box(color)), skip)
            },
            None,
        );
    }
}

/// One colour under round corners. pixman paints the whole canvas.
fn round_fills(sides: &mut Sides) {
    let (w, h) = (WIDTH as f32, HEIGHT as f32);
    let whole = [0.0, 0.0, w, h];
    let circle = [560.0, 140.0, 800.0, 800.0];
    let over = || work(Job::Over(TRANSLUCENT[0]));
    for (input, rect, r, color, most, pixman) in [
        (
            "translucent, radius 40, whole canvas",
            whole,
            40.0,
            TRANSLUCENT[0],
            0.22,
            over(),
        ),
        (
            "opaque, a circle of radius 400",
            circle,
            400.0,
            OPAQUE[0],
            1.2,
            None,
        ),
        (
            "translucent, a circle of radius 400",
            circle,
            400.0,
            TRANSLUCENT[0],
            1.2,
            None,
        ),
    ] {
        let [x, y, w, h] = rect;
        let paint = black_box(Paint {
            kind: 0,
            colors: [color; 2],
            numbers: [0.0; 4],
        });
        sides.line_beside(
            "fill_rrect",
            &format!("one colour, {input}"),
            most,
            |px| shapes::fill(px, place(rect, r), paint),
            |c| {
                let paint = gfx::Paint::Solid(rgba(black_box(color)));
                c.fill_rrect(Rect::new(x, y, w, h), r, paint)
            },
            pixman,
        );
    }
}

fn strokes(sides: &mut Sides) {
    let color = TRANSLUCENT[0];
    let wide = [40.0, 30.0, 1840.0, 1020.0];
    for (input, rect, r, most) in [
        ("radius 24, 1840 x 1020", wide, 24.0, 1.0),
        ("radius 40, 1840 x 1020", wide, 40.0, 1.0),
        ("radius 200, 1840 x 1020", wide, 200.0, 1.2),
        (
            "a circle of radius 200",
            [760.0, 340.0, 400.0, 400.0],
            200.0,
            1.2,
        ),
    ] {
        let [x, y, w, h] = rect;
        sides.line_beside(
            "stroke_rrect",
            &format!("width 3, {input}"),
            most,
            |px| shapes::stroke(px, place(rect, r), 3.0, black_box(color)),
            |c| c.stroke_rrect(Rect::new(x, y, w, h), r, 3.0, rgba(black_box(color))),
            None,
        );
    }
}

/// Every paint over the whole canvas. `most` is what each is to reach.
fn fills(sides: &mut Sides, alphas: &str, colors: [u32; 2], most: [f64; 4]) {
    let (w, h) = (WIDTH as f32, HEIGHT as f32);
    let [c0, c1] = black_box(colors).map(rgba);
    let [p0, p1] = [Pt::new(100.0, 50.0), Pt::new(w - 300.0, h - 80.0)];
    let (centre, r) = (Pt::new(w * 0.5, h * 0.5), 900.0);
    let paints = [
        ("one colour", [0.0; 4], gfx::Paint::Solid(c0)),
        (
            "down the rows",
            [0.0, h, 0.0, 0.0],
            gfx::Paint::VGrad {
                y0: 0.0,
                y1: h,
                c0,
                c1,
            },
        ),
        (
            "along a line",
            [p0.x, p0.y, p1.x, p1.y],
            gfx::Paint::Linear { p0, p1, c0, c1 },
        ),
        (
            "out from a centre",
            [centre.x, centre.y, r, 0.0],
            gfx::Paint::Radial {
                c: centre,
                r,
                c0,
                c1,
            },
        ),
    ];
    for (kind, (name, numbers, paint)) in paints.into_iter().enumerate() {
        let ours = black_box(Paint {
            kind: kind as u32,
            colors,
            numbers,
        });
        let paint = black_box(paint);
        let pixman = match (kind, colors[0] >> 24) {
            (0, 255) => work(Job::Fill(colors[0])),
            (0, _) => work(Job::Over(colors[0])),
            _ => None,
        };
        sides.line_beside(
            "fill_rrect",
            &format!("{name}, {alphas}, whole canvas"),
            most[kind],
            |px| shapes::fill(px, place([0.0, 0.0, w, h], 0.0), ours),
            |c| c.fill_rrect(Rect::new(0.0, 0.0, w, h), 0.0, paint),
            pixman,
        );
    }
}

/// A place on the whole canvas.
fn place(rect: [f32; 4], r: f32) -> Place {
    Place {
        w: WIDTH,
        h: HEIGHT,
        clip: [0, 0, WIDTH as i32, HEIGHT as i32],
        rect: black_box(rect),
        r: black_box(r),
    }
}

fn rgba(word: u32) -> Color {
    let [a, r, g, b] = word.to_be_bytes();
    Color::rgba(r, g, b, a)
}
