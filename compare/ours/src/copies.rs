//! The proved copies, as crate `c_copies` exports them. A canvas or a source that does not fit its size
//! leaves the canvas as it was, so any call is safe.
use crate::Onto;

/// What is copied.
#[derive(Clone, Copy)]
pub struct Source<'a> {
    pub px: &'a [u32],
    pub w: usize,
    pub h: usize,
}

unsafe extern "C" {
    fn copy_rounded_dim(
        px: *mut u32,
        px_len: usize,
        w: usize,
        h: usize,
        x0: i32,
        y0: i32,
        x1: i32,
        y1: i32,
        src: *const u32,
        src_len: usize,
        sw: usize,
        sh: usize,
        x: i32,
        y: i32,
        r: f32,
        alpha: u32,
        dim: u32,
    );
    fn copy_scaled(
        px: *mut u32,
        px_len: usize,
        w: usize,
        h: usize,
        x0: i32,
        y0: i32,
        x1: i32,
        y1: i32,
        src: *const u32,
        src_len: usize,
        sw: usize,
        sh: usize,
        x: f32,
        y: f32,
        rw: f32,
        rh: f32,
        r: f32,
        alpha: f32,
    );
    fn copy_genie(
        px: *mut u32,
        px_len: usize,
        w: usize,
        h: usize,
        x0: i32,
        y0: i32,
        x1: i32,
        y1: i32,
        src: *const u32,
        src_len: usize,
        sw: usize,
        sh: usize,
        x: f32,
        y: f32,
        rw: f32,
        rh: f32,
        tx: f32,
        ty: f32,
        t: f32,
        alpha: f32,
    );
}

// Safe: pointers and lengths are those of slices, and two slices of which one is `&mut` share nothing.

/// The source at (x, y).
pub fn rounded_dim(
    px: &mut [u32],
    onto: Onto,
    src: Source,
    [x, y]: [i32; 2],
    r: f32,
    alpha: u32,
    dim: u32,
) {
    let [x0, y0, x1, y1] = onto.clip;
    let (dst, len) = (px.as_mut_ptr(), px.len());
    let (from, from_len) = (src.px.as_ptr(), src.px.len());
    unsafe {
        copy_rounded_dim(
            dst, len, onto.w, onto.h, x0, y0, x1, y1, from, from_len, src.w, src.h, x, y, r, alpha,
            dim,
        )
    }
}

/// The source stretched over the rectangle x, y, w, h.
pub fn scaled(px: &mut [u32], onto: Onto, src: Source, dest: [f32; 4], r: f32, alpha: f32) {
    let ([x0, y0, x1, y1], [x, y, rw, rh]) = (onto.clip, dest);
    let (dst, len) = (px.as_mut_ptr(), px.len());
    let (from, from_len) = (src.px.as_ptr(), src.px.len());
    unsafe {
        copy_scaled(
            dst, len, onto.w, onto.h, x0, y0, x1, y1, from, from_len, src.w, src.h, x, y, rw, rh,
            r, alpha,
        )
    }
}

/// The source's rows on their way from the rectangle x, y, w, h to the target: t goes from 0 to 1.
pub fn genie(
    px: &mut [u32],
    onto: Onto,
    src: Source,
    rect: [f32; 4],
    [tx, ty]: [f32; 2],
    t: f32,
    alpha: f32,
) {
    let ([x0, y0, x1, y1], [x, y, rw, rh]) = (onto.clip, rect);
    let (dst, len) = (px.as_mut_ptr(), px.len());
    let (from, from_len) = (src.px.as_ptr(), src.px.len());
    unsafe {
        copy_genie(
            dst, len, onto.w, onto.h, x0, y0, x1, y1, from, from_len, src.w, src.h, x, y, rw, rh,
            tx, ty, t, alpha,
        )
    }
}
