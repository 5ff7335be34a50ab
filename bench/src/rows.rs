//! ns a pixel of the row functions, on one row that stays in the cache and on a whole canvas.
use crate::clock::{head, least, line, Goal};
use crate::leaves::Random;
use crate::sides::{HEIGHT, WIDTH};
use kash::color;
use std::hint::black_box;

/// The Rust's loops, written as its painters write them.
mod far {
    use super::color;

    /// As published: ours clears the top bytes besides.
    #[inline(never)]
    pub fn row_copy(dst: &mut [u32], src: &[u32]) {
        dst.copy_from_slice(src);
    }

    #[inline(never)]
    pub fn row_fill(dst: &mut [u32], v: u32) {
        for d in dst.iter_mut() {
            *d = v;
        }
    }

    #[inline(never)]
    pub fn row_blend(dst: &mut [u32], r: u32, g: u32, b: u32, a: u32) {
        for d in dst.iter_mut() {
            *d = color::blend(*d, r, g, b, a);
        }
    }

    #[inline(never)]
    pub fn row_mix(dst: &mut [u32], src: &[u32], t256: u32) {
        for (d, s) in dst.iter_mut().zip(src) {
            *d = color::mix_pix(*d, *s, t256);
        }
    }
}

/// A row function, handed a row and a source.
type Row<'a> = &'a dyn Fn(&mut [u32], &[u32]);

pub fn table() {
    head("ns a pixel");
    let mut random = Random(2);
    let mut dst: Vec<u32> = (0..WIDTH * HEIGHT).map(|_| random.word()).collect();
    let src: Vec<u32> = (0..WIDTH * HEIGHT).map(|_| random.word()).collect();
    // hidden, so that neither side is compiled for one weight or colour
    let [r, g, b] = black_box([200u8, 100, 50]);
    let (t, a, full, v) = black_box((100, 128, 255, 0x12_3456));
    let [wr, wg, wb] = [r, g, b].map(u32::from);
    let most = Goal::Ratio(0.8);
    let mut show = |name: &str, goal: Goal, ours: Row, rust: Row| {
        line(
            name,
            "row of 1920",
            one_row(&mut dst, &src, ours, rust),
            goal,
        );
        line(
            name,
            "1920 x 1080",
            canvas(&mut dst, &src, ours, rust),
            goal,
        );
    };
    show(
        "row_mix, t = 100",
        most,
        &|d, s| ours::row_mix(d, s, t),
        &|d, s| far::row_mix(d, s, t),
    );
    show(
        "row_blend, a = 128",
        most,
        &|d, _| ours::row_blend(d, r, g, b, a),
        &|d, _| far::row_blend(d, wr, wg, wb, a),
    );
    show(
        "row_blend, a = 255",
        Goal::None,
        &|d, _| ours::row_blend(d, r, g, b, full),
        &|d, _| far::row_blend(d, wr, wg, wb, full),
    );
    show(
        "row_copy",
        Goal::None,
        &|d, s| ours::row_copy(d, s),
        &|d, s| far::row_copy(d, s),
    );
    show(
        "row_fill",
        Goal::None,
        &|d, _| ours::row_fill(d, v),
        &|d, _| far::row_fill(d, v),
    );
}

/// The same row again and again.
fn one_row(dst: &mut [u32], src: &[u32], ours: Row, rust: Row) -> (f64, f64) {
    const TIMES: usize = 100;
    let mut copy = dst[..WIDTH].to_vec();
    let again = |row: &mut [u32], f: Row| (0..TIMES).for_each(|_| f(black_box(row), &src[..WIDTH]));
    least(
        WIDTH * TIMES,
        || again(&mut dst[..WIDTH], ours),
        || again(&mut copy, rust),
    )
}

/// Every row of a canvas.
fn canvas(dst: &mut [u32], src: &[u32], ours: Row, rust: Row) -> (f64, f64) {
    let mut copy = dst.to_vec();
    let down = |px: &mut [u32], f: Row| {
        for (d, s) in px.chunks_exact_mut(WIDTH).zip(src.chunks_exact(WIDTH)) {
            f(black_box(d), s);
        }
    };
    least(dst.len(), || down(dst, ours), || down(&mut copy, rust))
}
