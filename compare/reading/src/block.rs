//! One block: its fields and its tests 4 to 7 and 15.
use crate::{Cause, BLOCK, BODY};
use std::ops::{Range, RangeInclusive};

/// A block without its check.
pub type Body = [u8; BODY];

pub(crate) const KIND: usize = 0;
pub(crate) const FLAGS: usize = 1;
pub(crate) const PRIORITY: usize = 2;
pub(crate) const SOURCE: usize = 4;
pub(crate) const X: usize = 8;
pub(crate) const Y: usize = 12;
pub(crate) const WIDTH: usize = 16;
pub(crate) const HEIGHT: usize = 20;
pub(crate) const BORDER: usize = 24;
pub(crate) const TAG: usize = 28;
pub(crate) const PAINT: usize = 29;
pub(crate) const RECT: usize = 32;
pub(crate) const RADIUS: usize = 48;
pub(crate) const BLUR: usize = 52;
pub(crate) const COLOR: usize = 56;
pub(crate) const SATURATION: usize = 60;
pub(crate) const BRIGHTNESS: usize = 64;
pub(crate) const BEZEL: usize = 68;
pub(crate) const SPEC: usize = 72;
pub(crate) const ALPHA: usize = 76;
pub(crate) const DIM: usize = 80;
pub(crate) const FLOAT_ALPHA: usize = 84;
pub(crate) const T: usize = 88;
pub(crate) const TARGET: usize = 92;
pub(crate) const STROKE_WIDTH: usize = 100;
pub(crate) const TABLE: usize = 104;
pub(crate) const CLIP: usize = 236;
pub(crate) const SECOND_COLOR: usize = 252;
pub(crate) const NUMBERS: usize = 256;

const ENTRIES: usize = 33;

/// What the blur of a glass may be; a NaN is in no range.
pub(crate) const GLASS_BLUR: RangeInclusive<f32> = 0.0..=64.0;

/// The f32 nearest 1.6.
const BEND: f32 = f32::from_bits(0x3FCC_CCCD);

/// Tests 4 to 7 and 15 of a block, in this order.
pub fn judge(block: &[u8; BLOCK]) -> Result<(), Cause> {
    let (body, check) = block.split_first_chunk().expect("a block has a body");
    let check = u32::from_le_bytes(check.try_into().expect("four bytes are left"));
    if check_of(body) != check {
        return Err(Cause::Check);
    }
    judge_body(body)
}

/// Tests 5 to 7 and 15.
pub fn judge_body(body: &Body) -> Result<(), Cause> {
    if !is_formed(body) {
        Err(Cause::Form)
    } else if !floats_fit(body) {
        Err(Cause::Float)
    } else if !integers_fit(body) {
        Err(Cause::Integer)
    } else if !bend_fits(body) {
        Err(Cause::Bend)
    } else {
        Ok(())
    }
}

/// The sum over i from 0 to 507 of (i + 1) × byte i. It stays below 2^25.
pub fn check_of(body: &Body) -> u32 {
    (1..).zip(body).map(|(i, b)| i * *b as u32).sum()
}

/// The body with its right check behind it.
pub fn checked(body: &Body) -> [u8; BLOCK] {
    let mut block = [0; BLOCK];
    block[..BODY].copy_from_slice(body);
    block[BODY..].copy_from_slice(&check_of(body).to_le_bytes());
    block
}

pub fn priority_of(body: &Body) -> u16 {
    u16::from_le_bytes(four(body, PRIORITY)[..2].try_into().expect("two bytes"))
}

/// Test 5: kind, tag and paint are known, and unused bytes and flag bits are zero.
fn is_formed(body: &Body) -> bool {
    let Some(used) = used_by(body) else {
        return false;
    };
    let flags = match body[KIND] {
        3 => 0b01,
        8 => 0b11,
        _ => 0,
    };
    if body[FLAGS] & !flags != 0 {
        return false;
    }
    // what lies between two fields that are used is unused; a fold, for it is faster than `any`
    let mut from = PRIORITY + 2;
    for field in used.iter().chain([&(BODY..BODY)]) {
        if body[from..field.start].iter().fold(0, |a, b| a | *b) != 0 {
            return false;
        }
        from = field.end;
    }
    true
}

/// The bytes from 4 on that the block's kind and paint use, in rising order.
fn used_by(body: &Body) -> Option<&'static [Range<usize>]> {
    const CLIPPED: Range<usize> = CLIP..CLIP + 16;
    const SHAPE: Range<usize> = RECT..RADIUS + 4;
    const COLORED: Range<usize> = COLOR..COLOR + 4;
    const PAINTED: Range<usize> = PAINT..PAINT + 1;
    // the second colour and n numbers
    const fn graded(n: usize) -> Range<usize> {
        SECOND_COLOR..NUMBERS + 4 * n
    }
    const fn word(at: usize) -> Range<usize> {
        at..at + 4
    }
    Some(match (body[KIND], body[PAINT], body[TAG]) {
        (1, 0, _) => &[PAINTED, SHAPE, COLORED, CLIPPED],
        (1, 1, _) => const { &[PAINTED, SHAPE, COLORED, CLIPPED, graded(2)] },
        (1, 2, _) => const { &[PAINTED, SHAPE, COLORED, CLIPPED, graded(4)] },
        (1, 3, _) => const { &[PAINTED, SHAPE, COLORED, CLIPPED, graded(3)] },
        (2, ..) => const { &[SHAPE, COLORED, word(STROKE_WIDTH), CLIPPED] },
        (3, ..) => &[RECT..COLOR + 4, CLIPPED],
        (4, ..) => &[RECT..SPEC + 4, TABLE..CLIP + 16],
        (5, ..) => const { &[SOURCE..Y + 4, word(RADIUS), ALPHA..DIM + 4, CLIPPED] },
        (6, ..) => const { &[word(SOURCE), SHAPE, word(FLOAT_ALPHA), CLIPPED] },
        (7, ..) => const { &[word(SOURCE), RECT..RADIUS, FLOAT_ALPHA..TARGET + 8, CLIPPED] },
        (8, _, 0..=6) => &[X..TAG + 1, CLIPPED],
        _ => return None,
    })
}

/// Test 6: every float that is used is finite and within its range.
fn floats_fit(body: &Body) -> bool {
    const FAR: RangeInclusive<f32> = -16384.0..=16384.0;
    const SIDE: RangeInclusive<f32> = 0.0..=16384.0;
    const UNIT: RangeInclusive<f32> = 0.0..=1.0;
    // a NaN is in no range
    let fits = |at, range: RangeInclusive<f32>| range.contains(&float(body, at));
    let place = |at| fits(at, FAR) && fits(at + 4, FAR);
    let rect = || place(RECT) && fits(RECT + 8, SIDE) && fits(RECT + 12, SIDE);
    let radius = || fits(RADIUS, 0.0..=8192.0);
    let alpha = || fits(FLOAT_ALPHA, UNIT);
    match body[KIND] {
        1 => rect() && radius() && numbers_fit(body),
        2 => rect() && radius() && fits(STROKE_WIDTH, 0.0..=256.0),
        3 => rect() && radius() && fits(BLUR, 0.0..=256.0),
        4 => {
            rect()
                && radius()
                && fits(BLUR, GLASS_BLUR)
                && fits(SATURATION, 0.0..=8.0)
                && fits(BRIGHTNESS, -1.0..=1.0)
                && fits(BEZEL, 0.0..=256.0)
                && fits(SPEC, UNIT)
                && (!reads_table(body) || table_fits(body))
        }
        5 => radius(),
        6 => rect() && radius() && alpha(),
        7 => rect() && place(TARGET) && fits(T, UNIT) && alpha(),
        _ => true,
    }
}

/// The numbers of a fill's paint: y0, y1; or two points; or a centre and a radius.
fn numbers_fit(body: &Body) -> bool {
    let number = |i: usize| float(body, NUMBERS + 4 * i);
    let far = |i| (-16384.0..=16384.0).contains(&number(i));
    match body[PAINT] {
        0 => true,
        1 => far(0) && far(1),
        2 => (0..4).all(far),
        _ => far(0) && far(1) && (0.0..=16384.0).contains(&number(2)),
    }
}

/// Whether a glass has a table that counts: else it is of any bytes.
fn reads_table(body: &Body) -> bool {
    float(body, BEZEL) > 0.5
}

fn entry(body: &Body, i: usize) -> f32 {
    float(body, TABLE + 4 * i)
}

fn table_fits(body: &Body) -> bool {
    let fits = |i| (0.0..=1024.0).contains(&entry(body, i));
    (0..ENTRIES).all(fits) && entry(body, ENTRIES - 1) == 0.0
}

/// Test 7: every integer that is used is within its range.
fn integers_fit(body: &Body) -> bool {
    const FAR: RangeInclusive<i32> = -16384..=16384;
    const NEAR: RangeInclusive<i32> = 0..=16384;
    let fits = |at, range: RangeInclusive<i32>| range.contains(&signed(body, at));
    let most = |at, end| word(body, at) <= end;
    let clip = (0..4).all(|i| fits(CLIP + 4 * i, FAR));
    clip && match body[KIND] {
        5 => fits(X, FAR) && fits(Y, FAR) && most(ALPHA, 255) && most(DIM, 255),
        8 => {
            fits(X, NEAR)
                && fits(Y, NEAR)
                && most(WIDTH, 4096)
                && most(HEIGHT, 4096)
                && most(BORDER, 4096)
        }
        _ => true,
    }
}

/// Test 15: every entry of a table that is read is at most bezel × 1.6, the product rounded once.
fn bend_fits(body: &Body) -> bool {
    if body[KIND] != 4 || !reads_table(body) {
        return true;
    }
    let most = float(body, BEZEL) * BEND;
    (0..ENTRIES).all(|i| entry(body, i) <= most)
}

pub(crate) fn four(body: &Body, at: usize) -> [u8; 4] {
    body[at..at + 4].try_into().expect("four bytes")
}

pub(crate) fn word(body: &Body, at: usize) -> u32 {
    u32::from_le_bytes(four(body, at))
}

pub(crate) fn signed(body: &Body, at: usize) -> i32 {
    i32::from_le_bytes(four(body, at))
}

pub(crate) fn float(body: &Body, at: usize) -> f32 {
    f32::from_bits(word(body, at))
}
