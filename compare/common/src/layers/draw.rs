//! Draws blocks that pass their tests, with a liking for the ends of the ranges.
use super::fields::{Field, Form, BEZEL, FLAGS, KIND, PAINT, PRIORITY, TABLE, TABLE_END, TAG};
use crate::draw::{edge, Draw, EDGE_COUNT};
pub use reading::checked;
use reading::{Body, BODY};

pub const TABLE_RANGE: (f32, f32) = (0.0, 1024.0);

/// The greatest entry of a table that suits its bezel. At most 409.6: the range's end is never in the way.
pub fn bend_most(bezel: f32) -> f32 {
    bezel * 1.6
}

/// The patterns of NaNs: quiet, signalling, of either sign.
pub const NANS: [u32; 6] = [
    0x7F80_0001,
    0x7FC0_0000,
    0x7FFF_FFFF,
    0xFF80_0001,
    0xFFC0_0000,
    0xFFFF_FFFF,
];

pub fn pick<T: Copy>(draw: &mut Draw, from: &[T]) -> T {
    from[draw.below(from.len() as u64) as usize]
}

pub fn put_float(body: &mut Body, at: usize, v: f32) {
    put_word(body, at, v.to_bits());
}

pub fn put_word(body: &mut Body, at: usize, v: u32) {
    body[at..at + 4].copy_from_slice(&v.to_le_bytes());
}

pub fn float_at(body: &Body, at: usize) -> f32 {
    let bytes = body[at..at + 4].try_into().expect("four bytes");
    f32::from_bits(u32::from_le_bytes(bytes))
}

/// A float of the range; every range holds 0.
pub fn within(draw: &mut Draw, lo: f32, hi: f32) -> f32 {
    let v = match draw.below(10) {
        0 => lo,
        1 => hi,
        2 => lo.next_up(),
        3 => hi.next_down(),
        4 => 0.0,
        5 => -0.0,
        6 => edge(draw.below(EDGE_COUNT)),
        // subnormal
        7 => f32::from_bits(draw.below(1 << 23) as u32),
        _ => lo + (hi - lo) * (draw.below(1 << 24) as f32 / (1 << 24) as f32),
    };
    if lo <= v && v <= hi {
        v
    } else {
        hi
    }
}

/// A float that is none of the range.
pub fn beyond(draw: &mut Draw, lo: f32, hi: f32) -> f32 {
    let v = match draw.below(10) {
        0..=2 => hi.next_up(),
        3..=4 => lo.next_down(),
        5 => f32::from_bits(pick(draw, &NANS)),
        6 => pick(draw, &[f32::INFINITY, f32::NEG_INFINITY]),
        7 => pick(draw, &[f32::MAX, f32::MIN, 2.0 * hi, -2.0 * hi - 1.0]),
        8 => edge(draw.below(EDGE_COUNT)),
        _ => f32::from_bits(draw.bits() as u32),
    };
    if lo <= v && v <= hi {
        f32::NAN
    } else {
        v
    }
}

fn integer_within(draw: &mut Draw, f: &Field<i32>) -> i32 {
    match draw.below(6) {
        0 => f.lo,
        1 => f.hi,
        2 => f.lo + 1,
        3 => f.hi - 1,
        _ => f.lo + draw.below((f.hi - f.lo + 1) as u64) as i32,
    }
}

pub fn integer_beyond(draw: &mut Draw, f: &Field<i32>) -> i32 {
    let inside = integer_within(draw, f);
    let v = match draw.below(8) {
        0..=1 => f.hi + 1,
        2..=3 => f.lo - 1,
        4 => pick(draw, &[i32::MIN, i32::MAX, i32::MIN + 1]),
        // right in its low half or its low bytes
        5 => inside.wrapping_add(1 << (16 + draw.below(16))),
        6 => inside ^ i32::MIN,
        _ => draw.bits() as i32,
    };
    if (f.lo..=f.hi).contains(&v) {
        i32::MAX
    } else {
        v
    }
}

/// Priorities of which many have one byte in common.
pub fn priority(draw: &mut Draw) -> u16 {
    match draw.below(4) {
        0 => pick(draw, &[0, 1, 9, 10, 255, 256, 0x7FFF, 0x8000, 0xFFFF]),
        1 => (draw.below(4) << 8 | draw.below(4)) as u16,
        _ => draw.bits() as u16,
    }
}

/// A block that passes.
pub fn valid(draw: &mut Draw, form: &Form) -> Body {
    let mut body = [0; BODY];
    body[KIND] = form.kind;
    body[FLAGS] = draw.bits() as u8 & form.flags;
    body[PRIORITY..PRIORITY + 2].copy_from_slice(&priority(draw).to_le_bytes());
    for f in &form.floats {
        let v = within(draw, f.lo, f.hi);
        put_float(&mut body, f.at, v);
    }
    for f in &form.integers {
        let v = integer_within(draw, f);
        put_word(&mut body, f.at, v as u32);
    }
    for byte in form.any.iter().flat_map(|bytes| bytes.clone()) {
        body[byte] = draw.byte();
    }
    match form.kind {
        1 => body[PAINT] = form.paint,
        4 => glass(draw, &mut body),
        8 => body[TAG] = draw.below(7) as u8,
        _ => {}
    }
    body
}

/// Bezel and table of a glass: at most 0.5 the table may hold anything, else it is held to the bezel.
fn glass(draw: &mut Draw, body: &mut Body) {
    match draw.below(4) {
        0..=1 => {
            let half = 0.5f32;
            let bezel = pick(draw, &[half, half.next_down(), half.next_up(), 1.0]);
            put_float(body, BEZEL, bezel);
        }
        2 => put_float(body, BEZEL, wide_bezel(draw)),
        _ => {}
    }
    let bezel = float_at(body, BEZEL);
    let tested = bezel > 0.5;
    let idle = draw.below(4) == 0;
    for at in (TABLE..=TABLE_END).step_by(4) {
        let v = match (tested, idle) {
            (_, true) => 0.0,
            (true, _) => within(draw, TABLE_RANGE.0, bend_most(bezel)),
            _ => unread(draw, bezel),
        };
        put_float(body, at, v);
    }
    if tested {
        let end = pick(draw, &[0.0, -0.0]);
        put_float(body, TABLE_END, end);
    }
}

/// A bezel whose table is read, above 0.5 and up to 256: at the ends, of few digits, or of any bits.
pub fn wide_bezel(draw: &mut Draw) -> f32 {
    let least = 0.5f32.next_up();
    let most = 256.0f32;
    match draw.below(8) {
        0 => least,
        1 => most,
        2 => pick(draw, &[0.9, 1.0, 1.5, 12.0, 20.0, most.next_down()]),
        3 => least + draw.below(1 << 23) as f32 / (1 << 24) as f32,
        // every binade alike
        _ => {
            let from = least.to_bits();
            f32::from_bits(from + draw.below((most.to_bits() - from) as u64) as u32)
        }
    }
}

/// What an entry may be where the table is not read: a NaN, or above all that the bezel would allow.
fn unread(draw: &mut Draw, bezel: f32) -> f32 {
    match draw.below(4) {
        0 => bend_most(bezel).next_up(),
        1 => beyond(draw, TABLE_RANGE.0, TABLE_RANGE.1),
        _ => f32::from_bits(pick(draw, &NANS) ^ draw.below(3) as u32),
    }
}
