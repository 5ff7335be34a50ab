//! Seeded numbers with a liking for the places where a slip would show.

/// The floats at which something changes: ends of ranges, neighbours of whole numbers, both zeros,
/// infinities, NaNs. Each is taken with both signs.
const EDGES: [u32; 44] = [
    0x0000_0000, // 0
    0x0000_0001, // the least
    0x007F_FFFF, // the greatest subnormal
    0x0080_0000, // the least normal
    0x3EFF_FFFF, // below 0.5
    0x3F00_0000, // 0.5
    0x3F00_0001,
    0x3F7F_FFFF, // below 1
    0x3F80_0000, // 1
    0x3F80_0001,
    0x3FBF_FFFF, // below 1.5
    0x3FC0_0000, // 1.5
    0x4000_0000, // 2
    0x4020_0000, // 2.5
    0x4040_0000, // 3
    0x437E_FFFF, // below 255
    0x437F_0000, // 255
    0x437F_7FFF, // below 255.5
    0x437F_8000, // 255.5
    0x437F_FFFF, // below 256
    0x4380_0000, // 256
    0x4680_0000, // 16384
    0x4A7F_FFFF, // below 2 ^ 22
    0x4A80_0000, // 2 ^ 22
    0x4AFF_FFFE, // 2 ^ 23 - 1
    0x4AFF_FFFF, // 2 ^ 23 - 0.5
    0x4B00_0000, // 2 ^ 23
    0x4B00_0001,
    0x4B7F_FFFF, // 2 ^ 24 - 1
    0x4B80_0000, // 2 ^ 24
    0x4B80_0001,
    0x4EFF_FFFF, // below 2 ^ 31
    0x4F00_0000, // 2 ^ 31
    0x4F00_0001,
    0x4F7F_FFFF, // below 2 ^ 32
    0x4F80_0000, // 2 ^ 32
    0x5EFF_FFFF, // below 2 ^ 63
    0x5F00_0000, // 2 ^ 63
    0x5F80_0000, // 2 ^ 64
    0x7F7F_FFFF, // the greatest
    0x7F80_0000, // infinity
    0x7F80_0001, // NaNs
    0x7FC0_0000,
    0x7FFF_FFFF,
];

/// How many edges there are, signs counted.
pub const EDGE_COUNT: u64 = 2 * EDGES.len() as u64;

pub fn edge(i: u64) -> f32 {
    f32::from_bits(EDGES[(i / 2) as usize] | ((i % 2) as u32) << 31)
}

/// Mantissas at which a rounding goes the other way: 0, all ones, single bits and their neighbours.
const MANTISSAS: u64 = 4 * 23;

fn mantissa(i: u64) -> u32 {
    let bit = 1u32 << (i / 4);
    let m = match i % 4 {
        0 => bit,
        1 => bit - 1,
        2 => bit + 1,
        _ => bit.wrapping_neg(),
    };
    m & 0x7F_FFFF
}

/// How many cases of [`pattern`] are not random: each sign and exponent with each such mantissa.
pub const PATTERNS: u64 = 512 * MANTISSAS;

/// A float by its bits: first all of `PATTERNS`, then random ones.
pub fn pattern(seed: u64, i: u64) -> f32 {
    if i < PATTERNS {
        f32::from_bits(((i / MANTISSAS) as u32) << 23 | mantissa(i % MANTISSAS))
    } else {
        Draw::new(seed, i).float()
    }
}

/// N floats: first every choice of edges, while there are at most three, then random ones.
pub fn floats<const N: usize>(seed: u64, i: u64) -> [f32; N] {
    let mut at = i;
    if i < choices::<N>() {
        return std::array::from_fn(|_| {
            let x = edge(at % EDGE_COUNT);
            at /= EDGE_COUNT;
            x
        });
    }
    let mut draw = Draw::new(seed, i);
    std::array::from_fn(|_| draw.float())
}

/// How many cases of [`floats`] are edges alone.
pub const fn choices<const N: usize>() -> u64 {
    if N <= 3 {
        EDGE_COUNT.pow(N as u32)
    } else {
        0
    }
}

/// A stream of numbers that the seed and the case's number settle: no matter which thread asks.
pub struct Draw(u64);

impl Draw {
    pub fn new(seed: u64, case: u64) -> Draw {
        let mut draw = Draw(seed ^ case.wrapping_mul(0xD1B5_4A32_D192_ED03));
        draw.bits();
        draw
    }

    /// splitmix64
    pub fn bits(&mut self) -> u64 {
        self.0 = self.0.wrapping_add(0x9E37_79B9_7F4A_7C15);
        let mut z = self.0;
        z = (z ^ (z >> 30)).wrapping_mul(0xBF58_476D_1CE4_E5B9);
        z = (z ^ (z >> 27)).wrapping_mul(0x94D0_49BB_1331_11EB);
        z ^ (z >> 31)
    }

    pub fn below(&mut self, n: u64) -> u64 {
        ((self.bits() >> 32) * n) >> 32
    }

    pub fn float(&mut self) -> f32 {
        match self.below(4) {
            0 => edge(self.below(EDGE_COUNT)),
            1 => f32::from_bits(self.bits() as u32),
            // a multiple of a half, or of a 256th, at a canvas's size
            2 => {
                (self.below(65_537) as f32 - 32_768.0)
                    * if self.below(2) == 0 { 0.5 } else { 1.0 / 256.0 }
            }
            _ => (self.below(1 << 24) as f32 / (1 << 22) as f32) - 2.0,
        }
    }

    pub fn int(&mut self) -> i32 {
        let near = self.below(5) as i32 - 2;
        match self.below(4) {
            0 => [0, 4096, -16_384, 1 << 24, -1 << 24, i32::MAX, i32::MIN][self.below(7) as usize]
                .wrapping_add(near),
            1 => self.bits() as i32,
            2 => near,
            _ => self.below(40_001) as i32 - 20_000,
        }
    }

    pub fn byte(&mut self) -> u8 {
        match self.below(4) {
            0 => [0, 1, 127, 128, 254, 255][self.below(6) as usize],
            _ => self.bits() as u8,
        }
    }

    /// A pixel, with anything in its top byte.
    pub fn pixel(&mut self) -> u32 {
        match self.below(4) {
            0 => u32::from_be_bytes(std::array::from_fn(|_| self.byte())),
            _ => self.bits() as u32,
        }
    }

    /// An alpha, a coverage or a share of 256, mostly within its range.
    pub fn weight(&mut self) -> u32 {
        match self.below(8) {
            0 => self.bits() as u32,
            1 => [0, 1, 127, 128, 254, 255, 256, 257][self.below(8) as usize],
            _ => self.below(258) as u32,
        }
    }
}
