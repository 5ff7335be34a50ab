//! The proved painters, as crate `c_shapes` exports them. A canvas that does not fit its size is left
//! as it was, so any call is safe.

/// What a shape is filled with: 0 one colour, 1 down the rows, 2 along a line, 3 out from a centre.
/// Colours are words: alpha in the top byte, then red, green, blue.
#[derive(Clone, Copy, Debug)]
pub struct Paint {
    pub kind: u32,
    pub colors: [u32; 2],
    pub numbers: [f32; 4],
}

unsafe extern "C" {
    fn shape_fill(
        px: *mut u32,
        px_len: usize,
        w: usize,
        h: usize,
        x0: i32,
        y0: i32,
        x1: i32,
        y1: i32,
        x: f32,
        y: f32,
        rw: f32,
        rh: f32,
        r: f32,
        kind: u32,
        c0: u32,
        c1: u32,
        n0: f32,
        n1: f32,
        n2: f32,
        n3: f32,
    );
    fn shape_stroke(
        px: *mut u32,
        px_len: usize,
        w: usize,
        h: usize,
        x0: i32,
        y0: i32,
        x1: i32,
        y1: i32,
        x: f32,
        y: f32,
        rw: f32,
        rh: f32,
        r: f32,
        width: f32,
        color: u32,
    );
    fn shape_shadow(
        px: *mut u32,
        px_len: usize,
        w: usize,
        h: usize,
        x0: i32,
        y0: i32,
        x1: i32,
        y1: i32,
        x: f32,
        y: f32,
        rw: f32,
        rh: f32,
        r: f32,
        blur: f32,
        color: u32,
        skip_inside: u32,
    );
}

/// Where a shape goes: the canvas's size, the clip as x0, y0, x1, y1, the rectangle as x, y, w, h,
/// and the corner radius.
#[derive(Clone, Copy, Debug)]
pub struct Place {
    pub w: usize,
    pub h: usize,
    pub clip: [i32; 4],
    pub rect: [f32; 4],
    pub r: f32,
}

// Safe: pointer and length are those of a slice.

pub fn fill(px: &mut [u32], at: Place, paint: Paint) {
    let ([x0, y0, x1, y1], [x, y, rw, rh]) = (at.clip, at.rect);
    let ([c0, c1], [n0, n1, n2, n3]) = (paint.colors, paint.numbers);
    let (dst, len) = (px.as_mut_ptr(), px.len());
    unsafe {
        shape_fill(
            dst, len, at.w, at.h, x0, y0, x1, y1, x, y, rw, rh, at.r, paint.kind, c0, c1, n0, n1,
            n2, n3,
        )
    }
}

pub fn stroke(px: &mut [u32], at: Place, width: f32, color: u32) {
    let ([x0, y0, x1, y1], [x, y, rw, rh]) = (at.clip, at.rect);
    let (dst, len) = (px.as_mut_ptr(), px.len());
    unsafe {
        shape_stroke(
            dst, len, at.w, at.h, x0, y0, x1, y1, x, y, rw, rh, at.r, width, color,
        )
    }
}

pub fn shadow(px: &mut [u32], at: Place, blur: f32, color: u32, skip_inside: u32) {
    let ([x0, y0, x1, y1], [x, y, rw, rh]) = (at.clip, at.rect);
    let (dst, len) = (px.as_mut_ptr(), px.len());
    unsafe {
        shape_shadow(
            dst,
            len,
            at.w,
            at.h,
            x0,
            y0,
            x1,
            y1,
            x,
            y,
            rw,
            rh,
            at.r,
            blur,
            color,
            skip_inside,
        )
    }
}
