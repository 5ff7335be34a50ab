//! color, and `dim_pix` of comp.rs.
use crate::tally::{over, Pixel, Tally};
use crate::{Plan, Report};
use common::draw::{edge, Draw, EDGE_COUNT};
use kash::color::{self, Color};
use kash::comp;
use std::fmt::Debug;

pub fn compare(plan: &Plan, report: &mut Report) {
    report.line("pix", pix());
    report.line("from_pix", from_pix(plan));
    report.line("mix_pix", mix_pix(plan));
    report.line("blend", blend(plan));
    report.line("blend_c", blend_c(plan));
    report.line("dim_pix", dim_pix(plan));
    report.line("Color::mix", color_mix(plan));
}

/// Every value of two channels with every weight from 0 to 257.
const CHANNELS: u64 = 256 * 256 * 258;

/// A case of `CHANNELS`: two pixels whose channels take every pair of values, each channel its own
/// order of them, and the weight.
fn channels(i: u64) -> (u32, u32, u32) {
    let (a, b, weight) = (i % 256, i / 256 % 256, i / 65_536);
    (spread(a as u32), spread(b as u32), weight as u32)
}

fn spread(v: u32) -> u32 {
    v << 16 | (v ^ 0x55) << 8 | (255 - v)
}

fn bytes(p: u32) -> [u8; 4] {
    p.to_be_bytes()
}

fn color(p: u32) -> Color {
    let [a, r, g, b] = bytes(p);
    Color::rgba(r, g, b, a)
}

fn word(c: Color) -> u32 {
    u32::from_be_bytes([c.a, c.r, c.g, c.b])
}

fn check<const N: usize>(
    tally: &mut Tally,
    ours: u32,
    rust: u32,
    pixels: [u32; N],
    weight: impl Debug,
) {
    tally.check(Pixel(ours), Pixel(rust), (pixels.map(Pixel), weight));
}

fn pix() -> Tally {
    over(1 << 24, |i, tally| {
        let p = i as u32 | spread(i as u32 & 255) << 24;
        let [a, r, g, b] = bytes(p);
        check(tally, ours::pix(r, g, b, a), color(p).pix(), [p], ());
    })
}

fn from_pix(plan: &Plan) -> Tally {
    over((1 << 24) + plan.bulk, |i, tally| {
        let p = if i < 1 << 24 {
            i as u32
        } else {
            Draw::new(plan.seed, i).pixel()
        };
        check(tally, ours::from_pix(p), word(Color::from_pix(p)), [p], ());
    })
}

fn mix_pix(plan: &Plan) -> Tally {
    over(CHANNELS + plan.bulk, |i, tally| {
        let (a, b, t) = if i < CHANNELS {
            channels(i)
        } else {
            let mut draw = Draw::new(plan.seed, i);
            (draw.pixel(), draw.pixel(), draw.weight())
        };
        check(
            tally,
            ours::mix_pix(a, b, t),
            color::mix_pix(a, b, t),
            [a, b],
            t,
        );
    })
}

fn blend(plan: &Plan) -> Tally {
    over(CHANNELS + plan.bulk, |i, tally| {
        let (dst, c, a) = if i < CHANNELS {
            channels(i)
        } else {
            let mut draw = Draw::new(plan.seed, i);
            (draw.pixel(), draw.pixel(), draw.weight())
        };
        let [_, r, g, b] = bytes(c);
        let rust = color::blend(dst, r as u32, g as u32, b as u32, a);
        check(tally, ours::blend(dst, r, g, b, a), rust, [dst, c], a);
    })
}

/// Every alpha with every coverage from 0 to 257, over pixels at random, then all at random.
fn blend_c(plan: &Plan) -> Tally {
    const SURE: u64 = 256 * 258 * 64;
    over(SURE + plan.bulk, |i, tally| {
        let mut draw = Draw::new(plan.seed, i);
        let (dst, mut c, mut cov) = (draw.pixel(), draw.pixel(), draw.weight());
        if i < SURE {
            c = c & 0xFF_FFFF | (i as u32 % 256) << 24;
            cov = (i / 256 % 258) as u32;
        }
        let [a, r, g, b] = bytes(c);
        let mine = ours::blend_c(dst, r, g, b, a, cov);
        check(
            tally,
            mine,
            color::blend_c(dst, color(c), cov),
            [dst, c],
            cov,
        );
    })
}

fn dim_pix(plan: &Plan) -> Tally {
    over(CHANNELS + plan.bulk, |i, tally| {
        let (p, dim) = if i < CHANNELS {
            let (p, top, dim) = channels(i);
            (p | top << 24, dim)
        } else {
            let mut draw = Draw::new(plan.seed, i);
            (draw.pixel(), draw.weight())
        };
        check(
            tally,
            ours::dim_pix(p, dim),
            comp::dim_pix(p, dim),
            [p],
            dim,
        );
    })
}

/// Every two values of a channel at every edge of t, then at random.
fn color_mix(plan: &Plan) -> Tally {
    const SURE: u64 = 256 * 256 * EDGE_COUNT;
    over(SURE + plan.bulk, |i, tally| {
        let (c, o, t) = if i < SURE {
            let (c, o, k) = channels(i);
            (c | c << 24, o | o << 24, edge(k as u64))
        } else {
            let mut draw = Draw::new(plan.seed, i);
            let t = if draw.below(2) == 0 {
                draw.below(1 << 24) as f32 / (1 << 24) as f32
            } else {
                draw.float()
            };
            (draw.bits() as u32, draw.bits() as u32, t)
        };
        let ([a0, r0, g0, b0], [a1, r1, g1, b1]) = (bytes(c), bytes(o));
        let mine = ours::color_mix(r0, g0, b0, a0, r1, g1, b1, a1, t);
        check(tally, mine, word(color(c).mix(color(o), t)), [c, o], t);
    })
}
