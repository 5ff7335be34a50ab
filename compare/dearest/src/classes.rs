//! The sorts of calls, and of panels that are searched, that every run has to meet.
use crate::check::Asked;
use crate::search::Found;
use common::sorts::Class;
use reading::{scale_of, Cause};

/// A call: its size, its blur, what it is answered, and whether its block is painted.
pub const CALLS: &[Class<Asked>] = &[
    ("told: 1 by 1", |a| told(a) && size(a, 1, 1)),
    ("told: one pixel wide", |a| {
        told(a) && wide(a, 1) && !high(a, 1)
    }),
    ("told: one pixel high", |a| {
        told(a) && high(a, 1) && !wide(a, 1)
    }),
    ("told: 1 by 4096", |a| told(a) && size(a, 1, 4096)),
    ("told: 4096 by 1", |a| told(a) && size(a, 4096, 1)),
    ("told: 2 wide", |a| told(a) && wide(a, 2)),
    ("told: 2 high", |a| told(a) && high(a, 2)),
    ("told: 3 wide", |a| told(a) && wide(a, 3)),
    ("told: 3 high", |a| told(a) && high(a, 3)),
    ("told: 4 wide", |a| told(a) && wide(a, 4)),
    ("told: 4 high", |a| told(a) && high(a, 4)),
    ("told: 5 wide", |a| told(a) && wide(a, 5)),
    ("told: 5 high", |a| told(a) && high(a, 5)),
    ("told: 4095 wide", |a| told(a) && wide(a, 4095)),
    ("told: 4095 high", |a| told(a) && high(a, 4095)),
    ("told: 4095 by 4095", |a| told(a) && size(a, 4095, 4095)),
    ("told: 4096 wide", |a| told(a) && wide(a, 4096)),
    ("told: 4096 high", |a| told(a) && high(a, 4096)),
    ("told: 4096 by 4096, k = 1", |a| largest(a, 1)),
    ("told: 4096 by 4096, k = 2", |a| largest(a, 2)),
    ("told: 4096 by 4096, k = 4", |a| largest(a, 4)),
    ("told: k = 2, one column over", |a| over(a, 2, 1)),
    ("told: k = 4, one column over", |a| over(a, 4, 1)),
    ("told: k = 4, two columns over", |a| over(a, 4, 2)),
    ("told: k = 4, three columns over", |a| over(a, 4, 3)),
    ("told: blur 0", |a| told(a) && bits(a, 0)),
    ("told: blur -0", |a| told(a) && bits(a, 1 << 31)),
    ("told: the least blur above 0", |a| told(a) && bits(a, 1)),
    ("told: a subnormal blur", |a| {
        told(a) && blur(a).is_subnormal()
    }),
    ("told: the float below 2.5", |a| {
        told(a) && is(a, 2.5f32.next_down())
    }),
    ("told: 2.5", |a| told(a) && is(a, 2.5)),
    ("told: the float above 2.5", |a| {
        told(a) && is(a, 2.5f32.next_up())
    }),
    ("told: the float below 9", |a| {
        told(a) && is(a, 9f32.next_down())
    }),
    ("told: 9", |a| told(a) && is(a, 9.0)),
    ("told: the float above 9", |a| {
        told(a) && is(a, 9f32.next_up())
    }),
    ("told: the float below 64", |a| {
        told(a) && is(a, 64f32.next_down())
    }),
    ("told: 64", |a| told(a) && is(a, 64.0)),
    ("told: over zeros", |a| told(a) && filled(a, 0)),
    ("told: over FF", |a| told(a) && filled(a, 0xFF)),
    ("refused: 1, width 0", |a| one(a) && wide(a, 0)),
    ("refused: 1, height 0", |a| one(a) && high(a, 0)),
    ("refused: 1, width 4097", |a| one(a) && wide(a, 4097)),
    ("refused: 1, height 4097", |a| one(a) && high(a, 4097)),
    ("refused: 1, width 65536", |a| one(a) && wide(a, 1 << 16)),
    ("refused: 1, height 65536", |a| one(a) && high(a, 1 << 16)),
    ("refused: 1, width 2^32 - 1", |a| {
        one(a) && wide(a, u32::MAX)
    }),
    ("refused: 1, height 2^32 - 1", |a| {
        one(a) && high(a, u32::MAX)
    }),
    ("refused: 1, a width right in its low half", |a| {
        one(a) && fits(a.call.width as u16 as u32) && fits(a.call.height)
    }),
    ("refused: 1, a height right in its low half", |a| {
        one(a) && fits(a.call.height as u16 as u32) && fits(a.call.width)
    }),
    ("refused: 1, both sides", |a| {
        one(a) && !fits(a.call.width) && !fits(a.call.height)
    }),
    ("refused: 1, and the blur above 64", |a| {
        one(a) && blur(a) > 64.0
    }),
    ("refused: 1, and the blur below 0", |a| {
        one(a) && blur(a) < 0.0
    }),
    ("refused: 1, and the blur a NaN", |a| {
        one(a) && blur(a).is_nan()
    }),
    ("refused: 1, over FF", |a| one(a) && filled(a, 0xFF)),
    ("refused: 6, the float above 64", |a| {
        six(a) && is(a, 64f32.next_up())
    }),
    ("refused: 6, far above 64", |a| six(a) && is(a, f32::MAX)),
    ("refused: 6, the float below 0", |a| {
        six(a) && bits(a, (1 << 31) + 1)
    }),
    ("refused: 6, a subnormal below 0", |a| {
        six(a) && blur(a) < 0.0 && blur(a).is_subnormal()
    }),
    ("refused: 6, -1", |a| six(a) && is(a, -1.0)),
    ("refused: 6, far below 0", |a| six(a) && is(a, f32::MIN)),
    ("refused: 6, infinity", |a| six(a) && is(a, f32::INFINITY)),
    ("refused: 6, -infinity", |a| {
        six(a) && is(a, f32::NEG_INFINITY)
    }),
    ("refused: 6, a quiet NaN", |a| six(a) && nan(a, true, false)),
    ("refused: 6, a quiet NaN with a sign", |a| {
        six(a) && nan(a, true, true)
    }),
    ("refused: 6, a signalling NaN", |a| {
        six(a) && nan(a, false, false)
    }),
    ("refused: 6, a signalling NaN with a sign", |a| {
        six(a) && nan(a, false, true)
    }),
    ("refused: 6, a NaN of all ones", |a| {
        six(a) && bits(a, u32::MAX)
    }),
    ("refused: 6, on one pixel", |a| six(a) && size(a, 1, 1)),
    ("refused: 6, on 4096 by 4096", |a| {
        six(a) && size(a, 4096, 4096)
    }),
    ("refused: 6, over FF", |a| six(a) && filled(a, 0xFF)),
    ("painted: 1 by 1", |a| a.painted && size(a, 1, 1)),
    ("painted: one pixel wide", |a| {
        a.painted && wide(a, 1) && !high(a, 1)
    }),
    ("painted: one pixel high", |a| {
        a.painted && high(a, 1) && !wide(a, 1)
    }),
    ("painted: k = 1", |a| a.painted && scale_of(blur(a)) == 1),
    ("painted: k = 2", |a| a.painted && scale_of(blur(a)) == 2),
    ("painted: k = 4", |a| a.painted && scale_of(blur(a)) == 4),
    ("painted: more than 64 by 64", |a| {
        a.painted && a.call.pixels() > 4096
    }),
];

fn told(a: &Asked) -> bool {
    a.call.answer.is_ok()
}

fn one(a: &Asked) -> bool {
    a.call.answer == Err((Cause::Canvas, 0))
}

fn six(a: &Asked) -> bool {
    a.call.answer == Err((Cause::Float, 0))
}

fn wide(a: &Asked, width: u32) -> bool {
    a.call.width == width
}

fn high(a: &Asked, height: u32) -> bool {
    a.call.height == height
}

fn size(a: &Asked, width: u32, height: u32) -> bool {
    wide(a, width) && high(a, height)
}

fn fits(side: u32) -> bool {
    (1..=4096).contains(&side)
}

fn blur(a: &Asked) -> f32 {
    a.call.blur
}

fn is(a: &Asked, v: f32) -> bool {
    bits(a, v.to_bits())
}

fn bits(a: &Asked, bits: u32) -> bool {
    blur(a).to_bits() == bits
}

/// A NaN that is quiet or signalling, with or without a sign.
fn nan(a: &Asked, quiet: bool, sign: bool) -> bool {
    let bits = blur(a).to_bits();
    blur(a).is_nan() && (bits & (1 << 22) != 0) == quiet && (bits >> 31 != 0) == sign
}

fn filled(a: &Asked, byte: u8) -> bool {
    a.call.before.iter().all(|b| *b == byte)
}

fn largest(a: &Asked, k: usize) -> bool {
    told(a) && size(a, 4096, 4096) && scale_of(blur(a)) == k
}

/// The last column of cells is so many pixels wide.
fn over(a: &Asked, k: usize, columns: usize) -> bool {
    told(a) && scale_of(blur(a)) == k && a.call.width as usize % k == columns
}

/// A panel that was drawn in search of one that needs more.
pub const FOUND: &[Class<Found>] = &[
    ("as dear as the formula: passes its tests", |f| {
        f.is_dear() && f.judged.is_ok()
    }),
    ("as dear: refused by 4", |f| refused(f, Cause::Check)),
    ("as dear: refused by 5", |f| refused(f, Cause::Form)),
    ("as dear: refused by 6", |f| refused(f, Cause::Float)),
    ("as dear: refused by 7", |f| refused(f, Cause::Integer)),
    ("as dear: refused by 15", |f| refused(f, Cause::Bend)),
    ("as dear: k = 1", |f| f.is_dear() && f.glass.scale() == 1),
    ("as dear: k = 2", |f| f.is_dear() && f.glass.scale() == 2),
    ("as dear: k = 4", |f| f.is_dear() && f.glass.scale() == 4),
    ("as dear: on one pixel", |f| {
        f.is_dear() && f.width * f.height == 1
    }),
    ("as dear: on a canvas one pixel wide", |f| {
        f.is_dear() && f.width == 1 && f.height > 1
    }),
    ("as dear: on a canvas one pixel high", |f| {
        f.is_dear() && f.height == 1 && f.width > 1
    }),
    ("as dear: on 12 by 12, k = 1", |f| {
        f.is_dear() && f.width == 12 && f.height == 12 && f.glass.scale() == 1
    }),
    ("as dear: larger than the canvas", |f| {
        f.is_dear() && f.glass.rect[2] > f.width as f32 && f.glass.rect[3] > f.height as f32
    }),
    ("as dear: smaller than the canvas", |f| {
        f.is_dear() && f.glass.rect[2] < f.width as f32 && f.glass.rect[3] < f.height as f32
    }),
    ("as dear: its table is read", |f| {
        f.is_dear() && f.glass.bezel > 0.5
    }),
    ("as dear: a rectangle that is not finite", |f| {
        f.is_dear() && f.glass.rect.iter().any(|v| !v.is_finite())
    }),
    ("as dear: -0 where 0 is sought", |f| {
        f.is_dear() && f.is_other_zero()
    }),
    ("less dear", |f| 0 < f.need && f.need < f.most),
    ("needs nothing", |f| f.need == 0),
    ("needs nothing, though it is as large as the canvas", |f| {
        let [_, _, w, h] = f.glass.rect;
        f.need == 0 && [w, h] == [f.width as f32, f.height as f32]
    }),
];

fn refused(f: &Found, cause: Cause) -> bool {
    f.is_dear() && f.judged == Err(cause)
}
