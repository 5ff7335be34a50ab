//! The edges at which a case may lie, each told from its numbers.
use crate::numbers::FAR;
use crate::painters::Case;

pub type Class<C> = (&'static str, fn(&C) -> bool);

/// The edges of a canvas.
pub fn of_canvas<C: Case>() -> Vec<Class<C>> {
    vec![
        ("canvas of one pixel", |c| {
            let at = c.onto();
            at.w * at.h == 1
        }),
        ("canvas with a side above 24", |c| {
            let at = c.onto();
            at.w.max(at.h) > 24
        }),
        ("old pixels with a top byte", |c| {
            c.canvas_before().first >> 24 != 0
        }),
    ]
}

/// The edges of a clip.
pub fn of_clip<C: Case>() -> Vec<Class<C>> {
    vec![
        ("clip is the canvas", |c| {
            let at = c.onto();
            at.clip == [0, 0, at.w as i32, at.h as i32]
        }),
        ("clip beyond the canvas", |c| {
            let at = c.onto();
            let [x0, y0, x1, y1] = at.clip;
            x0 < 0 && y0 < 0 && x1 > at.w as i32 && y1 > at.h as i32
        }),
        ("clip partly outside", |c| {
            let at = c.onto();
            let [x0, y0, x1, y1] = at.clip;
            x0 < x1 && y0 < y1 && (x0 < 0 || y0 < 0 || x1 > at.w as i32 || y1 > at.h as i32)
        }),
        ("clip cuts the canvas", |c| {
            let at = c.onto();
            at.clip[0] > 0 && at.clip[0] < at.clip[2].min(at.w as i32)
        }),
        ("clip empty", |c| {
            let [x0, y0, x1, y1] = c.onto().clip;
            x0 == x1 || y0 == y1
        }),
        ("clip reversed", |c| {
            let [x0, y0, x1, y1] = c.onto().clip;
            x0 > x1 || y0 > y1
        }),
    ]
}

/// The edges of a rectangle.
pub fn of_rect<C: Case>() -> Vec<Class<C>> {
    vec![
        ("rect with a side of 0", |c| sides(c).contains(&0.0)),
        ("rect with a minute side", |c| {
            any(sides(c), |s| 0.0 < s && s < 0.001)
        }),
        ("rect with a side of 0.5 to below 1", |c| {
            any(sides(c), |s| (0.5..1.0).contains(&s))
        }),
        ("rect with a side of 1", |c| sides(c).contains(&1.0)),
        ("rect of whole numbers", |c| {
            c.rect().iter().all(|v| v.fract() == 0.0)
        }),
        ("rect with a half", |c| {
            any(c.rect(), |v| v.fract().abs() == 0.5)
        }),
        ("rect with -0", |c| any(c.rect(), minus_zero)),
        ("rect that starts below 0", |c| {
            c.rect()[0] < 0.0 || c.rect()[1] < 0.0
        }),
        ("rect at 16384 or -16384", |c| {
            any(c.rect(), |v| v.abs() == FAR)
        }),
        ("rect wholly outside", outside),
        ("rect partly outside", |c| {
            !outside(c) && !covered_by_canvas(c)
        }),
        ("rect within the canvas", covered_by_canvas),
    ]
}

/// The edges of a radius.
pub fn of_radius<C: Case>() -> Vec<Class<C>> {
    vec![
        ("radius 0", |c| c.radius() == 0.0),
        ("radius -0", |c| minus_zero(c.radius())),
        ("radius half a side", |c| {
            any(sides(c), |s| s > 0.0 && c.radius() == s * 0.5)
        }),
        ("radius above half a side", |c| {
            any(sides(c), |s| s > 0.0 && c.radius() > s * 0.5)
        }),
    ]
}

pub fn any<const N: usize>(values: [f32; N], test: impl Fn(f32) -> bool) -> bool {
    values.into_iter().any(test)
}

pub fn sides<C: Case>(c: &C) -> [f32; 2] {
    [c.rect()[2], c.rect()[3]]
}

pub fn minus_zero(v: f32) -> bool {
    v == 0.0 && v.is_sign_negative()
}

/// The rectangle's place, side and the canvas's, along either axis.
fn axes<C: Case>(c: &C) -> [(f32, f32, f32); 2] {
    let [x, y, w, h] = c.rect();
    [(x, w, c.onto().w as f32), (y, h, c.onto().h as f32)]
}

pub fn outside<C: Case>(c: &C) -> bool {
    axes(c)
        .iter()
        .any(|(at, side, n)| at + side <= 0.0 || at >= n)
}

pub fn covered_by_canvas<C: Case>(c: &C) -> bool {
    axes(c)
        .iter()
        .all(|(at, side, n)| *at >= 0.0 && at + side <= *n)
}

/// More columns under the clip than the scaled copy, the genie and the shadow work at once.
pub fn in_strips<C: Case>(c: &C) -> bool {
    let [x0, y0, x1, y1] = c.onto().clip.map(|v| v as f32);
    let [(x, w, wide), (y, h, high)] = axes(c);
    let across = (x + w).min(x1).min(wide) - x.max(x0).max(0.0);
    let down = (y + h).min(y1).min(high) - y.max(y0).max(0.0);
    across > 2048.0 && down > 0.0
}
