//! A canvas's size, a blur and the bytes that are lent: the ones at which something changes, and drawn ones.
use common::draw::Draw;
use common::layers::draw::{beyond, pick, within};
use common::numbers::up_to;
use reading::{dearest, Answer, BLOCK};

/// The longest side of a canvas.
const LONGEST: u32 = 4096;

/// Sides on which k = 2 and k = 4 leave every remainder, and sides that are refused: the last is right in its low half.
const SIDES: [u32; 12] = [
    1,
    2,
    3,
    4,
    5,
    LONGEST - 1,
    LONGEST,
    0,
    LONGEST + 1,
    1 << 16,
    u32::MAX,
    (1 << 16) + 5,
];

/// The bits of blurs at which something changes.
pub const BLURS: [u32; 38] = [
    0x0000_0000, // 0
    0x8000_0000, // -0
    0x0000_0001, // the least
    0x007F_FFFF, // the greatest subnormal
    0x0080_0000, // the least normal
    0x3F80_0000, // 1
    0x401F_FFFF, // below 2.5
    0x4020_0000, // 2.5
    0x4020_0001,
    0x410F_FFFF, // below 9
    0x4110_0000, // 9
    0x4110_0001,
    0x427F_FFFF, // below 64
    0x4280_0000, // 64
    0x4280_0001,
    0x7F7F_FFFF, // the greatest
    0x8000_0001, // the same below 0
    0x807F_FFFF,
    0x8080_0000,
    0xBF80_0000,
    0xC020_0000,
    0xC110_0000,
    0xC280_0000,
    0xFF7F_FFFF,
    0x7F80_0000, // infinities
    0xFF80_0000,
    0x7F80_0001, // signalling NaNs
    0x7FA0_0000,
    0x7FBF_FFFF,
    0xFF80_0001,
    0xFFA0_0000,
    0xFFBF_FFFF,
    0x7FC0_0000, // quiet ones
    0x7FC0_0001,
    0x7FFF_FFFF,
    0xFFC0_0000,
    0xFFE0_0000,
    0xFFFF_FFFF,
];

/// How many calls are made of these alone: every choice of them.
pub const CHOICES: u64 = (SIDES.len() * SIDES.len() * BLURS.len()) as u64;

/// By so many choices one call is from the next, so that a few already differ in all: it has no divisor of `CHOICES`.
const STRIDE: u64 = 2659;

/// What is asked, and what the reading answers.
#[derive(Debug)]
pub struct Call {
    pub width: u32,
    pub height: u32,
    pub blur: f32,
    /// The bytes that are lent, and as the reading leaves them.
    pub before: [u8; BLOCK],
    pub after: [u8; BLOCK],
    pub answer: Answer,
}

impl Call {
    /// Number i: first every choice of the sides and blurs above, then drawn ones.
    pub fn of(seed: u64, i: u64) -> Call {
        let draw = &mut Draw::new(seed, i);
        if i >= CHOICES {
            let (width, height, blur) = (side(draw), side(draw), blur(draw));
            return Call::new(draw, width, height, blur);
        }
        let choice = (i * STRIDE % CHOICES) as usize;
        let sides = choice / BLURS.len();
        let blur = f32::from_bits(BLURS[choice % BLURS.len()]);
        let width = SIDES[sides % SIDES.len()];
        let height = SIDES[sides / SIDES.len()];
        Call::new(draw, width, height, blur)
    }

    fn new(draw: &mut Draw, width: u32, height: u32, blur: f32) -> Call {
        let mut before = [pick(draw, &[0x00, 0xFF]); BLOCK];
        if draw.below(8) > 0 {
            before.fill_with(|| draw.byte());
        }
        let mut after = before;
        Call {
            answer: dearest(width, height, blur, &mut after),
            width,
            height,
            blur,
            before,
            after,
        }
    }

    pub fn pixels(&self) -> usize {
        self.width as usize * self.height as usize
    }
}

/// A side of a canvas, mostly a short one; or one that is refused.
fn side(draw: &mut Draw) -> u32 {
    match draw.below(16) {
        0..=1 => pick(draw, &SIDES),
        2..=3 => up_to(draw, LONGEST as u64) as u32,
        4..=7 => up_to(draw, 8) as u32,
        8 => draw.bits() as u32,
        _ => up_to(draw, 64) as u32,
    }
}

/// A blur of a panel, one that is refused, or any bits.
fn blur(draw: &mut Draw) -> f32 {
    // every NaN's exponent
    const ONES: u32 = 0x7F80_0000;
    match draw.below(16) {
        0..=1 => f32::from_bits(pick(draw, &BLURS)),
        2 => beyond(draw, 0.0, 64.0),
        3 => f32::from_bits(draw.bits() as u32 | ONES),
        4 => f32::from_bits(draw.bits() as u32),
        5..=7 => near(draw),
        8..=9 => within(draw, 0.0, 64.0),
        _ => draw.below(65) as f32 * 0.5,
    }
}

/// At most four floats from 2.5, from 9 or from 64.
fn near(draw: &mut Draw) -> f32 {
    let at = pick(draw, &[2.5f32, 9.0, 64.0]).to_bits() - 4;
    f32::from_bits(at + draw.below(9) as u32)
}
