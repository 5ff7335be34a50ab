//! geom.
use crate::reals::zero_if;
use crate::tally::{over, Answer, Tally};
use crate::{Plan, Report};
use common::draw::{floats, Draw};
use kash::geom::{IRect, Rect};

pub fn compare(plan: &Plan, report: &mut Report) {
    report.line(
        "Rect::right",
        rects(
            plan,
            |[x, y, w, h]| ours::rect_right(x, y, w, h),
            |r| r.right(),
        ),
    );
    report.line(
        "Rect::bottom",
        rects(
            plan,
            |[x, y, w, h]| ours::rect_bottom(x, y, w, h),
            |r| r.bottom(),
        ),
    );
    report.line(
        "Rect::cx",
        rects(plan, |[x, y, w, h]| ours::rect_cx(x, y, w, h), |r| r.cx()),
    );
    report.line(
        "Rect::cy",
        rects(plan, |[x, y, w, h]| ours::rect_cy(x, y, w, h), |r| r.cy()),
    );
    report.line("Rect::inset", inset(plan));
    report.line(
        "Rect::outer_pixels",
        rects(plan, outer_pixels, |r| sides(IRect::from_rect_outer(&r))),
    );
    report.line("IRect::intersect", intersect(plan));
    report.line(
        "IRect::is_empty",
        irects(
            plan,
            |[x0, y0, x1, y1]| ours::irect_is_empty(x0, y0, x1, y1),
            |r| r.is_empty(),
        ),
    );
    report.line(
        "IRect::w",
        irects(
            plan,
            |[x0, y0, x1, y1]| ours::irect_w(x0, y0, x1, y1),
            |r| size(r.x0, r.x1, || r.w()),
        ),
    );
    report.line(
        "IRect::h",
        irects(
            plan,
            |[x0, y0, x1, y1]| ours::irect_h(x0, y0, x1, y1),
            |r| size(r.y0, r.y1, || r.h()),
        ),
    );
}

fn rects<A: Answer>(
    plan: &Plan,
    ours: impl Fn([f32; 4]) -> A + Sync,
    rust: impl Fn(Rect) -> A + Sync,
) -> Tally {
    over(plan.bulk, |i, tally| {
        let r @ [x, y, w, h] = floats(plan.seed, i);
        tally.check(ours(r), rust(Rect::new(x, y, w, h)), r);
    })
}

fn irects<A: Answer>(
    plan: &Plan,
    ours: impl Fn([i32; 4]) -> A + Sync,
    rust: impl Fn(IRect) -> A + Sync,
) -> Tally {
    over(plan.bulk, |i, tally| {
        let r = ints(&mut Draw::new(plan.seed, i));
        tally.check(ours(r), rust(irect(r)), r);
    })
}

fn ints(draw: &mut Draw) -> [i32; 4] {
    std::array::from_fn(|_| draw.int())
}

fn irect([x0, y0, x1, y1]: [i32; 4]) -> IRect {
    IRect::new(x0, y0, x1, y1)
}

fn sides(r: IRect) -> [i32; 4] {
    [r.x0, r.y0, r.x1, r.y1]
}

fn outer_pixels([x, y, w, h]: [f32; 4]) -> [i32; 4] {
    [0, 1, 2, 3].map(|which| ours::rect_outer_pixels(x, y, w, h, which))
}

/// A width or height by the Rust where it fits an i32, and as it is where the Rust's would wrap.
fn size(from: i32, to: i32, rust: impl FnOnce() -> i32) -> i64 {
    let whole = to as i64 - from as i64;
    if i32::try_from(whole).is_ok() {
        rust() as i64
    } else {
        whole
    }
}

/// Where the width left is -0, Rust's `max(0.0)` may give either zero.
fn inset(plan: &Plan) -> Tally {
    over(plan.bulk, |i, tally| {
        let r @ [x, y, w, h, d] = floats(plan.seed, i);
        let open = |size: f32| (size - 2.0 * d).to_bits() == (-0.0f32).to_bits();
        let settled = |r: [f32; 4]| [r[0], r[1], zero_if(open(w), r[2]), zero_if(open(h), r[3])];
        tally.open += (open(w) || open(h)) as u64;
        let rust = Rect::new(x, y, w, h).inset(d);
        let mine = [0, 1, 2, 3].map(|which| ours::rect_inset(x, y, w, h, d, which));
        tally.check(settled(mine), settled([rust.x, rust.y, rust.w, rust.h]), r);
    })
}

fn intersect(plan: &Plan) -> Tally {
    over(plan.bulk, |i, tally| {
        let mut draw = Draw::new(plan.seed, i);
        let (r, o) = (ints(&mut draw), ints(&mut draw));
        let mine = [0, 1, 2, 3].map(|which| {
            ours::irect_intersect(r[0], r[1], r[2], r[3], o[0], o[1], o[2], o[3], which)
        });
        tally.check(mine, sides(irect(r).intersect(&irect(o))), (r, o));
    })
}
