//! The dearest panel, 02's request Five: the most scratch that a glass layer of a blur can need on a canvas, and one
//! that needs it.
use crate::block::{checked, Body, BLUR, CLIP, GLASS_BLUR, KIND, RECT, SATURATION};
use crate::boxes::scale_of;
use crate::play::{is_side, LONGEST};
use crate::{Answer, Cause, BLOCK, BODY};

/// What the dearest panel of this blur needs of each scratch slice, and its block. A refusal leaves the bytes.
pub fn dearest(width: u32, height: u32, blur: f32, block: &mut [u8; BLOCK]) -> Answer {
    if !(is_side(width) && is_side(height)) {
        return Err((Cause::Canvas, 0));
    }
    if !GLASS_BLUR.contains(&blur) {
        return Err((Cause::Float, 0));
    }
    *block = panel(blur);
    Ok(dearest_need(width, height, blur))
}

/// The need by 02's formula: 3 × ceil(width / k) × ceil(height / k), for a size and a blur that pass.
pub fn dearest_need(width: u32, height: u32, blur: f32) -> usize {
    let k = scale_of(blur);
    let cells = |side: u32| (side as usize).div_ceil(k);
    3 * cells(width) * cells(height)
}

/// A flat panel over the largest canvas, and so over every one; it is never thinner than two pixels, so that it has
/// a box where the canvas is. Which panel is shown is free: this one is what the library says that it shows.
fn panel(blur: f32) -> [u8; BLOCK] {
    let mut body: Body = [0; BODY];
    body[KIND] = 4;
    let mut put = |at: usize, word: u32| body[at..at + 4].copy_from_slice(&word.to_le_bytes());
    put(BLUR, blur.to_bits());
    put(SATURATION, 1f32.to_bits());
    for axis in [8, 12] {
        put(RECT + axis, (LONGEST as f32).to_bits());
        put(CLIP + axis, LONGEST);
    }
    checked(&body)
}
