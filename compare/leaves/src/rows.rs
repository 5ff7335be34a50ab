//! canvas: the row functions, beside loops over kash-ui's functions of a pixel.
use crate::tally::{over, Pixel, Tally};
use crate::{Plan, Report};
use common::draw::Draw;
use common::straight::clear;
use kash::color;

pub fn compare(plan: &Plan, report: &mut Report) {
    report.line(
        "row_fill",
        rows(
            plan,
            |dst, _, c, _| ours::row_fill(dst, c),
            |dst, _, c, _| dst.fill(c),
        ),
    );
    report.line(
        "row_copy",
        rows(
            plan,
            |dst, src, _, _| ours::row_copy(dst, src),
            // kash-ui copies the words whole; it is compared with their top bytes cleared
            |dst, src, _, _| dst.iter_mut().zip(src).for_each(|(d, s)| *d = clear(*s)),
        ),
    );
    report.line(
        "row_blend",
        rows(
            plan,
            |dst, _, c, a| {
                let [_, r, g, b] = c.to_be_bytes();
                ours::row_blend(dst, r, g, b, a)
            },
            |dst, _, c, a| {
                let [r, g, b] = [c >> 16 & 255, c >> 8 & 255, c & 255];
                dst.iter_mut()
                    .for_each(|d| *d = color::blend(*d, r, g, b, a))
            },
        ),
    );
    report.line(
        "row_mix",
        rows(
            plan,
            |dst, src, _, t| ours::row_mix(dst, src, t),
            |dst, src, _, t| {
                dst.iter_mut()
                    .zip(src)
                    .for_each(|(d, s)| *d = color::mix_pix(*d, *s, t))
            },
        ),
    );
}

/// The longest row. Loops that take several pixels at a time have their ends well below it.
const LONGEST: u64 = 70;

/// A row function is handed a row, a source of another length, a colour and a weight.
fn rows(
    plan: &Plan,
    ours: impl Fn(&mut [u32], &[u32], u32, u32) + Sync,
    rust: impl Fn(&mut [u32], &[u32], u32, u32) + Sync,
) -> Tally {
    over(plan.bulk / LONGEST, |i, tally| {
        let mut draw = Draw::new(plan.seed, i);
        let (c, weight) = (draw.pixel(), draw.weight());
        let lengths = [draw.below(LONGEST + 1), draw.below(LONGEST + 1)];
        let [row, src] = lengths.map(|n| (0..n).map(|_| draw.pixel()).collect::<Vec<u32>>());
        let (mut mine, mut theirs) = (row.clone(), row);
        ours(&mut mine, &src, c, weight);
        rust(&mut theirs, &src, c, weight);
        // the first pixel that differs, or the first of the row
        let at = (0..mine.len())
            .find(|k| mine[*k] != theirs[*k])
            .unwrap_or(0);
        let pixel = |row: &[u32]| Pixel(row.get(at).copied().unwrap_or(0));
        tally.check(
            pixel(&mine),
            pixel(&theirs),
            (lengths, at, Pixel(c), weight),
        );
    })
}
