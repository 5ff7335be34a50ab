//! Seeded layers whose numbers lie in the ranges that a rundown accepts, often at their edges.
use crate::case::{Case, Painter};
use common::draw::Draw;
use common::numbers::{self, *};
use common::painters::Case as _;
use ours::shapes::{Paint, Place};

/// Of a stroke's width and of a shadow's blur.
const WIDEST: f32 = 256.0;

/// The greatest blur b for which 96 / (2 × b) is infinite.
pub const INFINITE_SCALE: u32 = 0x0240_0000;

pub fn case(draw: &mut Draw, painter: Painter, canvas: Canvas) -> Case {
    let (w, h) = measure(draw, canvas);
    let mut rect = rect(draw, w, h);
    let mut size = match painter {
        Painter::Fill => 0.0,
        Painter::Stroke => width(draw, &rect),
        Painter::Shadow => blur(draw),
    };
    let mut r = radius(draw, [rect[2], rect[3]]);
    if painter == Painter::Shadow && draw.below(16) == 0 {
        // a rectangle about a pixel's centre, half as wide as a blur that is minute: its distance
        // there is exactly the blur below zero
        size = f32::from_bits([1, 2, INFINITE_SCALE - 1, INFINITE_SCALE][draw.below(4) as usize]);
        let column = |draw: &mut Draw, n: usize| draw.below(n as u64) as f32 + 0.5;
        rect = [column(draw, w), column(draw, h), 2.0 * size, 2.0 * size];
        r = 0.0;
    }
    Case {
        painter,
        at: Place {
            w,
            h,
            clip: clip(draw, w as i32, h as i32),
            rect,
            r,
        },
        paint: paint(draw, w, h),
        size,
        skip_inside: [0, 0, 1, u32::MAX][draw.below(4) as usize],
        before: Pixels::draw(draw),
    }
}

/// Whether a rundown accepts the numbers.
pub fn accepted(case: &Case) -> bool {
    let numbers = case.paint.numbers;
    numbers::accepted(&case.onto(), case.at.rect, case.at.r)
        && within(case.size, 0.0, WIDEST)
        && numbers.iter().all(|v| within(*v, -FAR, FAR))
        && (case.paint.kind != 3 || numbers[2] >= 0.0)
}

fn word(draw: &mut Draw) -> u32 {
    let alpha = match draw.below(4) {
        0 => [0, 1, 254, 255][draw.below(4) as usize],
        1 => 255,
        _ => draw.byte(),
    };
    u32::from_be_bytes([alpha, draw.byte(), draw.byte(), draw.byte()])
}

fn paint(draw: &mut Draw, w: usize, h: usize) -> Paint {
    let kind = match draw.below(16) {
        0 => [4, 5, u32::MAX][draw.below(3) as usize],
        n => n as u32 % 4,
    };
    let none = draw.below(8) == 0;
    let (x, y) = (place(draw, w), place(draw, h));
    let numbers = match kind {
        1 => [y, if none { y } else { place(draw, h) }, 0.0, 0.0],
        3 => {
            let longest = (w.max(h) + 2) as u64;
            let r = match draw.below(8) {
                _ if none => pick(draw, &[0.0, -0.0]),
                0 => minute(draw),
                1 => pick(draw, &[0.0009, 0.001, 0.5, 1.0, FAR]),
                _ => draw.below(longest) as f32 + unit(draw),
            };
            [x, y, r, 0.0]
        }
        _ if none => [x, y, x, y],
        _ => [x, y, place(draw, w), place(draw, h)],
    };
    Paint {
        kind,
        colors: [word(draw), word(draw)],
        numbers,
    }
}

/// A stroke's width.
fn width(draw: &mut Draw, rect: &[f32; 4]) -> f32 {
    let x = match draw.below(8) {
        0 => pick(draw, &[0.0, -0.0, 0.5, 0.999, WIDEST]),
        1 => minute(draw),
        2 => rect[2].min(rect[3]) * 0.5,
        3..=5 => pick(draw, &[1.0, 1.5, 2.0, 3.0]),
        6 => WIDEST * unit(draw),
        _ => 4.0 * unit(draw),
    };
    x.min(WIDEST)
}

/// A shadow's blur.
fn blur(draw: &mut Draw) -> f32 {
    match draw.below(8) {
        0 => pick(draw, &[0.0, -0.0, 0.45, 0.5, 0.999, WIDEST]),
        1 => minute(draw),
        2 => f32::from_bits(INFINITE_SCALE - 2 + draw.below(5) as u32),
        3 => 0.4 + 0.2 * unit(draw),
        4 => pick(draw, &[1.0, 2.0, 3.0, 4.0, 24.0]),
        5 => 24.0 * unit(draw),
        6 => WIDEST * unit(draw),
        _ => 4.0 * unit(draw),
    }
}
