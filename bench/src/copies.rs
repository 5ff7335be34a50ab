//! ns a pixel of the canvas for the copies. The Rust's are timed as published: an exact one copies rows as they are,
//! where ours clears the top bytes.
use crate::clock::head_beside;
use crate::pixman::{work, Job};
use crate::sides::{canvas, Sides, HEIGHT, WIDTH};
use kash::geom::{Pt, Rect};
use kash::gfx::Canvas;
use ours::copies::{self, Source};
use ours::Onto;
use std::hint::black_box;

pub fn table() {
    head_beside("ns a pixel", "pixman");
    let mut sides = Sides::new();
    let src = canvas(4, WIDTH, HEIGHT);
    for (input, r, alpha, dim, most) in [
        ("exact", 0.0, 255, 0, 1.05),
        ("dim 77", 0.0, 255, 77, 0.9),
        ("alpha 128", 0.0, 128, 0, 0.6),
        ("alpha 160, radius 24", 24.0, 160, 0, 0.57),
    ] {
        let (r, alpha, dim) = black_box((r, alpha, dim));
        let pixman = match alpha {
            255 => None,
            _ => work(Job::Mixed(&src, alpha as u8)),
        };
        sides.line_beside(
            "blit_rounded_dim",
            &format!("{input}, whole canvas"),
            most,
            |px| copies::rounded_dim(px, onto(), source(&src), [0, 0], r, alpha, dim),
            |c| c.blit_rounded_dim(&src, 0, 0, r, alpha, dim),
            pixman,
        );
    }
    for (input, [sw, sh], [w, h], most) in [
        (
            "960 x 540 to 1920 x 1080",
            [960, 540],
            [1920.0, 1080.0],
            0.45,
        ),
        (
            "3840 x 2160 to 1920 x 1080",
            [3840, 2160],
            [1920.0, 1080.0],
            0.55,
        ),
        (
            "1920 x 1080 to 960 x 540",
            [1920, 1080],
            [960.0, 540.0],
            0.7,
        ),
    ] {
        let src = canvas(5, sw, sh);
        let (w, h, r, alpha) = black_box((w, h, 24.0, 1.0));
        let whole = w == WIDTH as f32;
        sides.line_beside(
            "blit_scaled",
            &format!("{input}, radius 24"),
            most,
            |px| copies::scaled(px, onto(), source(&src), [0.0, 0.0, w, h], r, alpha),
            |c| c.blit_scaled(&src, Rect::new(0.0, 0.0, w, h), r, alpha),
            whole.then(|| work(Job::Stretched(&src))).flatten(),
        );
    }
    genie(&mut sides, &src);
}

fn genie(sides: &mut Sides, src: &Canvas) {
    let (rect, [tx, ty]) = black_box(([240.0, 90.0, 1440.0, 810.0], [960.0, 1070.0]));
    let (t, alpha) = black_box((0.5, 1.0));
    let [x, y, w, h] = rect;
    sides.line_beside(
        "blit_genie",
        "1920 x 1080 from 1440 x 810, t 0.5",
        1.0,
        |px| copies::genie(px, onto(), source(src), rect, [tx, ty], t, alpha),
        |c| c.blit_genie(src, Rect::new(x, y, w, h), Pt::new(tx, ty), t, alpha),
        None,
    );
}

fn onto() -> Onto {
    Onto {
        w: WIDTH,
        h: HEIGHT,
        clip: [0, 0, WIDTH as i32, HEIGHT as i32],
    }
}

fn source(canvas: &Canvas) -> Source<'_> {
    Source {
        px: &canvas.px,
        w: canvas.w as usize,
        h: canvas.h as usize,
    }
}
