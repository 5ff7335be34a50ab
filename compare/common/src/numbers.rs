//! Seeded sizes, places and clips in the ranges that a rundown accepts, often at their edges.
use crate::draw::Draw;
use ours::Onto;

/// A place reaches this far to either side, and a side is at most as long.
pub const FAR: f32 = 16384.0;
pub const WIDEST_RADIUS: f32 = 8192.0;

/// Floats above 0 that are as good as nothing.
const MINUTE: [u32; 6] = [
    0x0000_0001,
    0x0000_0002,
    0x007F_FFFF,
    0x0080_0000,
    0x2F80_0000,
    0x3580_0000,
];

/// What a canvas measures.
#[derive(Clone, Copy)]
pub enum Canvas {
    /// Mostly below 12 by 12, some up to 24 by 24, and some long rows.
    Any,
    /// 64 pixels, mostly 8 by 8, where so few show enough of a painter.
    Recorded,
    /// The longest row or column there is.
    Longest,
    /// This width and height.
    Given(usize, usize),
}

pub fn up_to(draw: &mut Draw, n: u64) -> usize {
    1 + draw.below(n) as usize
}

pub fn measure(draw: &mut Draw, canvas: Canvas) -> (usize, usize) {
    match canvas {
        Canvas::Any => match draw.below(16) {
            0 => (up_to(draw, 24), up_to(draw, 24)),
            1 => (up_to(draw, 70), up_to(draw, 3)),
            _ => (up_to(draw, 12), up_to(draw, 12)),
        },
        Canvas::Recorded => {
            let bits = [3, 3, 3, 4, 2, 5, 6, 0][draw.below(8) as usize];
            (1 << bits, 64 >> bits)
        }
        Canvas::Longest => [(4096, 1), (1, 4096), (4096, 2)][draw.below(3) as usize],
        Canvas::Given(w, h) => (w, h),
    }
}

/// A width, a height and a number of pixels that do not fit: a side of 0 or above 4096, more or
/// fewer pixels than the size has, sizes whose product wraps.
pub fn unfit(draw: &mut Draw, w: usize, h: usize) -> (usize, usize, usize) {
    const TOP: usize = 1 << 63;
    match draw.below(10) {
        0 => (w, h, w * h - 1),
        1 => (w, h, w * h + 1),
        2 => (w, h, 0),
        3 => (0, h, w * h),
        4 => (w, 0, w * h),
        5 => (4097, 1, 4097),
        6 => (1, 4097, 4097),
        7 => (usize::MAX, usize::MAX, 1),
        8 => (1 << 32, 1 << 32, w * h),
        _ => (TOP + w, 2 * h, w * 2 * h),
    }
}

/// Pixels of which number i is first + i × step, wrapped.
#[derive(Clone, Copy, Debug)]
pub struct Pixels {
    pub first: u32,
    pub step: u32,
}

impl Pixels {
    pub fn draw(draw: &mut Draw) -> Pixels {
        Pixels {
            first: [0, u32::MAX, draw.pixel(), draw.pixel()][draw.below(4) as usize],
            step: if draw.below(4) == 0 {
                0
            } else {
                draw.bits() as u32
            },
        }
    }

    pub fn take(self, count: usize) -> Vec<u32> {
        (0..count as u32)
            .map(|i| self.first.wrapping_add(i.wrapping_mul(self.step)))
            .collect()
    }
}

/// From 0 up to 1.
pub fn unit(draw: &mut Draw) -> f32 {
    draw.below(1 << 24) as f32 / (1 << 24) as f32
}

pub fn minute(draw: &mut Draw) -> f32 {
    f32::from_bits(MINUTE[draw.below(MINUTE.len() as u64) as usize])
}

pub fn pick(draw: &mut Draw, from: &[f32]) -> f32 {
    from[draw.below(from.len() as u64) as usize]
}

/// A float beside x.
pub fn beside(draw: &mut Draw, x: f32) -> f32 {
    f32::from_bits(x.to_bits() ^ (1 + draw.below(2) as u32))
}

/// A place along an axis on which the canvas has n pixels.
pub fn place(draw: &mut Draw, n: usize) -> f32 {
    let whole = draw.below(n as u64 + 7) as f32 - 3.0;
    match draw.below(16) {
        0..=4 => whole,
        5..=7 => whole + 0.5,
        8..=9 => whole + draw.below(256) as f32 / 256.0,
        10 => pick(draw, &[0.0, -0.0, 0.5, 0.999, 1.001, -0.5]),
        11 => beside(draw, whole),
        12 => {
            let least = minute(draw);
            pick(draw, &[-FAR, FAR, -WIDEST_RADIUS, least])
        }
        13 => draw.below(32_769) as f32 - FAR,
        _ => whole + unit(draw),
    }
}

/// A side that starts at x.
fn side(draw: &mut Draw, n: usize, x: f32) -> f32 {
    let whole = draw.below(n as u64 + 5) as f32;
    match draw.below(16) {
        0 => pick(draw, &[0.0, -0.0, 0.25, 0.5, 0.999, 1.0, 1.001]),
        1 => minute(draw),
        2..=5 => whole,
        6..=7 => whole + 0.5,
        8..=10 => whole + unit(draw),
        11 => pick(draw, &[FAR, WIDEST_RADIUS, 300.0]),
        _ => (place(draw, n) - x).clamp(0.0, FAR),
    }
}

/// A place and a side that meet the canvas's n pixels.
fn reach(draw: &mut Draw, n: usize) -> [f32; 2] {
    let from = draw.below(n as u64 / 2 + 2) as f32 - 1.0 + fraction(draw);
    [from, draw.below(n as u64) as f32 + 1.0 + fraction(draw)]
}

fn fraction(draw: &mut Draw) -> f32 {
    match draw.below(8) {
        0..=2 => 0.0,
        3 => 0.5,
        4 => 0.999,
        5 => draw.below(256) as f32 / 256.0,
        _ => unit(draw),
    }
}

pub fn rect(draw: &mut Draw, w: usize, h: usize) -> [f32; 4] {
    match draw.below(16) {
        0 => [0.0, 0.0, w as f32, h as f32],
        1 => [
            -1.0 - unit(draw),
            -2.5,
            w as f32 + 4.0,
            h as f32 + 3.0 + unit(draw),
        ],
        2..=9 => {
            let ([x, rw], [y, rh]) = (reach(draw, w), reach(draw, h));
            [x, y, rw, rh]
        }
        _ => {
            let (x, y) = (place(draw, w), place(draw, h));
            [x, y, side(draw, w, x), side(draw, h, y)]
        }
    }
}

/// A radius for a rectangle of these sides.
pub fn radius(draw: &mut Draw, sides: [f32; 2]) -> f32 {
    let half = sides[0].min(sides[1]) * 0.5;
    let r = match draw.below(12) {
        0..=1 => 0.0,
        2 => -0.0,
        3 => minute(draw),
        4 => half,
        5 => beside(draw, half),
        6 => half * 2.0 + unit(draw),
        7 => WIDEST_RADIUS,
        8..=9 => draw.below(7) as f32,
        _ => half * unit(draw),
    };
    // beside -0 lies a number below zero
    if r < 0.0 {
        0.0
    } else {
        r.min(WIDEST_RADIUS)
    }
}

pub fn clip(draw: &mut Draw, w: i32, h: i32) -> [i32; 4] {
    let far = FAR as i32;
    let near = |draw: &mut Draw, n: i32| draw.below(n as u64 + 9) as i32 - 4;
    let from = |draw: &mut Draw, n: i32| draw.below(n as u64) as i32;
    match draw.below(8) {
        0..=2 => [0, 0, w, h],
        3 => [[-far, -far, far, far], [-3, -1, w + 2, h + 5]][draw.below(2) as usize],
        4..=5 => {
            let (x, y) = (from(draw, w), from(draw, h));
            [x, y, x + 1 + from(draw, w), y + 1 + from(draw, h)]
        }
        6 => [near(draw, w), near(draw, h), near(draw, w), near(draw, h)],
        _ => {
            let (x, y) = (near(draw, w), near(draw, h));
            match draw.below(4) {
                0 => [x, y, x, h],
                1 => [w, h, 0, 0],
                2 => [far, far, -far, -far],
                _ => [w, 0, w + 3, h],
            }
        }
    }
}

pub fn within(v: f32, lo: f32, hi: f32) -> bool {
    lo <= v && v <= hi
}

/// Whether a rundown accepts the clip, the rectangle and the radius.
pub fn accepted(onto: &Onto, [x, y, w, h]: [f32; 4], r: f32) -> bool {
    let far = FAR as i32;
    onto.clip.iter().all(|v| (-far..=far).contains(v))
        && [x, y].iter().all(|v| within(*v, -FAR, FAR))
        && [w, h].iter().all(|v| within(*v, 0.0, FAR))
        && within(r, 0.0, WIDEST_RADIUS)
}
