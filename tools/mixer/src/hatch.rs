//! Marks on a picture that nobody needs colours to read: stripes, and lines of light and dark.
use tiglostrema::{IRect, Stain};

const ORANGE: u32 = 0xE69F00;
const DARK: u32 = 0x101418;
const LIGHT: u32 = 0xFFFFFF;

/// From one stripe to the next, along a row.
const PERIOD: u32 = 14;

/// Marks the stained pixels: an orange tint, slanting stripes of dark and light, and an edge.
pub fn stain(pixels: &mut [u32], map: &Stain) {
    let (w, h) = (map.width(), map.height());
    for y in 0..h {
        for x in 0..w {
            if map.is_stained(x, y) {
                let pixel = &mut pixels[(y * w + x) as usize];
                *pixel = mark(*pixel, (x + y) % PERIOD, edge(map, x, y));
            }
        }
    }
}

/// How a stained pixel looks: its place in the stripes, and its distance from the edge if it is near.
fn mark(pixel: u32, stripe: u32, edge: Option<u32>) -> u32 {
    match (edge, stripe) {
        (Some(1), _) => LIGHT,
        (Some(_), _) => DARK,
        (None, 0..=1) => mix(pixel, DARK, 190),
        (None, 2..=3) => mix(pixel, LIGHT, 140),
        _ => mix(pixel, ORANGE, 90),
    }
}

/// 1 or 2 where a pixel that is not stained lies that far away, along a row or a column.
fn edge(map: &Stain, x: u32, y: u32) -> Option<u32> {
    let (w, h) = (map.width(), map.height());
    (1..=2).find(|d| {
        let clean = |x: u32, y: u32| x < w && y < h && !map.is_stained(x, y);
        clean(x.wrapping_sub(*d), y)
            || clean(x + d, y)
            || clean(x, y.wrapping_sub(*d))
            || clean(x, y + d)
    })
}

/// A dashed line of light and dark just inside a box.
pub fn outline(pixels: &mut [u32], width: u32, area: IRect) {
    let inside = |x: i32, y: i32| {
        (x - area.x0)
            .min(area.x1 - 1 - x)
            .min(y - area.y0)
            .min(area.y1 - 1 - y)
    };
    for y in area.y0..area.y1 {
        for x in area.x0..area.x1 {
            if inside(x, y) < 3 {
                let dash = (x + y).rem_euclid(16) < 8;
                pixels[y as usize * width as usize + x as usize] = if dash { LIGHT } else { DARK };
            }
        }
    }
}

/// The pixel with a part of 256 of a colour.
fn mix(pixel: u32, colour: u32, part: u32) -> u32 {
    [16, 8, 0].into_iter().fold(0, |out, shift| {
        let (old, new) = ((pixel >> shift) & 255, (colour >> shift) & 255);
        out | ((old * (256 - part) + new * part) >> 8) << shift
    })
}

#[cfg(test)]
mod tests {
    use super::*;

    #[test]
    fn mixtures() {
        assert_eq!(mix(0x112233, 0xFFFFFF, 0), 0x112233);
        assert_eq!(mix(0x000000, 0xFFFFFF, 256), 0xFFFFFF);
    }

    #[test]
    fn an_outline_stays_in_its_box() {
        let mut pixels = vec![0x777777; 10 * 10];
        outline(&mut pixels, 10, IRect::new(1, 1, 9, 9));
        let changed = |i: usize| pixels[i] != 0x777777;
        assert!(!changed(0) && changed(11) && changed(88) && !changed(99));
        assert_eq!(pixels.iter().filter(|p| **p == 0x777777).count(), 36 + 4);
    }
}
