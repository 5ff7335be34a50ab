//! The proved secure frame and the glass panel, as crate `c_panels` exports them. What does not fit its size
//! is left as it was, so any call is safe.
use crate::Onto;

/// A window's place, and how thick its border is to be.
#[derive(Clone, Copy, Debug)]
pub struct Window {
    pub x: u32,
    pub y: u32,
    pub width: u32,
    pub height: u32,
    pub border: u32,
}

/// How a panel looks; the tint as red, green, blue, alpha.
#[derive(Clone, Copy, Debug)]
pub struct Style {
    pub radius: f32,
    pub blur: f32,
    pub tint: [u8; 4],
    pub saturation: f32,
    pub brightness: f32,
    pub bezel: f32,
    pub spec: f32,
}

unsafe extern "C" {
    fn panel_frame(
        px: *mut u32,
        px_len: usize,
        w: usize,
        h: usize,
        x: u32,
        y: u32,
        width: u32,
        height: u32,
        border: u32,
        tag: u8,
        tint: u32,
        xray: u32,
    );
    fn panel_glass(
        px: *mut u32,
        px_len: usize,
        w: usize,
        h: usize,
        x0: i32,
        y0: i32,
        x1: i32,
        y1: i32,
        x: f32,
        y: f32,
        rw: f32,
        rh: f32,
        radius: f32,
        blur: f32,
        red: u8,
        green: u8,
        blue: u8,
        alpha: u8,
        saturation: f32,
        brightness: f32,
        bezel: f32,
        spec: f32,
        table: *const [f32; 33],
        a: *mut u8,
        a_len: usize,
        b: *mut u8,
        b_len: usize,
    );
}

// Safe: pointers and lengths are those of slices, and two slices of which one is `&mut` share nothing.

/// The frame of the domain `tag` on a canvas of w by h.
pub fn frame(px: &mut [u32], [w, h]: [usize; 2], window: Window, tag: u8, [tint, xray]: [bool; 2]) {
    let (dst, len) = (px.as_mut_ptr(), px.len());
    let Window {
        x,
        y,
        width,
        height,
        border,
    } = window;
    unsafe {
        panel_frame(
            dst,
            len,
            w,
            h,
            x,
            y,
            width,
            height,
            border,
            tag,
            tint as u32,
            xray as u32,
        )
    }
}

/// The panel over the rectangle x, y, w, h, on two scratch slices.
pub fn glass(
    px: &mut [u32],
    onto: Onto,
    rect: [f32; 4],
    style: Style,
    table: &[f32; 33],
    a: &mut [u8],
    b: &mut [u8],
) {
    let ([x0, y0, x1, y1], [x, y, rw, rh]) = (onto.clip, rect);
    let [red, green, blue, alpha] = style.tint;
    unsafe {
        panel_glass(
            px.as_mut_ptr(),
            px.len(),
            onto.w,
            onto.h,
            x0,
            y0,
            x1,
            y1,
            x,
            y,
            rw,
            rh,
            style.radius,
            style.blur,
            red,
            green,
            blue,
            alpha,
            style.saturation,
            style.brightness,
            style.bezel,
            style.spec,
            table,
            a.as_mut_ptr(),
            a.len(),
            b.as_mut_ptr(),
            b.len(),
        )
    }
}
