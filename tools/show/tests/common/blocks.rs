//! Random blocks that the library takes, in the layout of the papers.
use super::Dice;
use tiglostrema::raw::{self, BLOCK_LEN, BODY_LEN};

/// What the fields of a block draw.
pub trait Draw {
    fn bits(&mut self) -> u32;
    fn float(&mut self, least: f32, most: f32) -> f32;
    fn integer(&mut self, least: i32, most: i32) -> u32;
}

impl Draw for Dice {
    fn bits(&mut self) -> u32 {
        self.next() as u32
    }

    /// A float between two others: the ends, both zeros, the smallest, whole numbers, and any between.
    fn float(&mut self, least: f32, most: f32) -> f32 {
        let part = self.bits() as f32 / u32::MAX as f32;
        let value = match self.below(9) {
            0 => least,
            1 => most,
            2 => -0.0,
            3 => f32::from_bits(1 + self.bits() % 0x80_0000),
            4 => -f32::from_bits(1 + self.bits() % 0x80_0000),
            5 => (least + part * (most - least)).trunc(),
            6 => f32::from_bits(self.bits()),
            _ => least + part * (most - least),
        };
        match (least..=most).contains(&value) {
            true => value,
            false => 0.0,
        }
    }

    fn integer(&mut self, least: i32, most: i32) -> u32 {
        let span = (most - least + 1) as u64;
        let value = match self.below(4) {
            0 => least,
            1 => most,
            _ => least + self.below(span) as i32,
        };
        value as u32
    }
}

/// A block without its check, in the layout of the papers; nothing of the crate's own layers is used.
struct Body([u8; BODY_LEN]);

impl Body {
    fn word(&mut self, at: usize, value: u32) {
        self.0[at..at + 4].copy_from_slice(&value.to_le_bytes());
    }

    fn floats(&mut self, dice: &mut Dice, at: usize, ranges: &[(f32, f32)]) {
        for (i, (least, most)) in ranges.iter().enumerate() {
            let value = dice.float(*least, *most);
            self.word(at + 4 * i, value.to_bits());
        }
    }

    fn integers(&mut self, dice: &mut Dice, at: usize, ranges: &[(i32, i32)]) {
        for (i, (least, most)) in ranges.iter().enumerate() {
            let value = dice.integer(*least, *most);
            self.word(at + 4 * i, value);
        }
    }

    fn rect(&mut self, dice: &mut Dice) {
        self.floats(dice, 32, &[PLACE, PLACE, SIDE, SIDE]);
    }

    fn radius(&mut self, dice: &mut Dice) {
        self.floats(dice, 48, &[(0.0, 8192.0)]);
    }
}

const PLACE: (f32, f32) = (-16384.0, 16384.0);
const SIDE: (f32, f32) = (0.0, 16384.0);
const WHOLE: (i32, i32) = (-16384, 16384);

/// A random block of a kind that the library takes.
pub fn body(dice: &mut Dice, kind: u8, priority: u16) -> [u8; BODY_LEN] {
    let mut b = Body([0; BODY_LEN]);
    b.0[0] = kind;
    b.0[2..4].copy_from_slice(&priority.to_le_bytes());
    b.integers(dice, 236, &[WHOLE; 4]);
    match kind {
        1 => fill(&mut b, dice),
        2 => stroke(&mut b, dice),
        3 => shadow(&mut b, dice),
        4 => glass(&mut b, dice),
        8 => frame(&mut b, dice),
        copy => copies(&mut b, dice, copy),
    }
    b.0
}

fn fill(b: &mut Body, dice: &mut Dice) {
    b.rect(dice);
    b.radius(dice);
    b.word(56, dice.bits());
    b.0[29] = dice.below(4) as u8;
    if b.0[29] > 0 {
        b.word(252, dice.bits());
    }
    match b.0[29] {
        0 => {}
        1 => b.floats(dice, 256, &[PLACE; 2]),
        2 => b.floats(dice, 256, &[PLACE; 4]),
        _ => b.floats(dice, 256, &[PLACE, PLACE, SIDE]),
    }
}

fn stroke(b: &mut Body, dice: &mut Dice) {
    b.rect(dice);
    b.radius(dice);
    b.word(56, dice.bits());
    b.floats(dice, 100, &[(0.0, 256.0)]);
}

fn shadow(b: &mut Body, dice: &mut Dice) {
    b.rect(dice);
    b.radius(dice);
    b.word(56, dice.bits());
    b.floats(dice, 52, &[(0.0, 256.0)]);
    b.0[1] = dice.below(2) as u8;
}

fn glass(b: &mut Body, dice: &mut Dice) {
    b.rect(dice);
    b.radius(dice);
    b.word(56, dice.bits());
    b.floats(dice, 52, &[(0.0, 64.0)]);
    let ranges = [(0.0, 8.0), (-1.0, 1.0), (0.0, 256.0), (0.0, 1.0)];
    b.floats(dice, 60, &ranges);
    let bezel = f32::from_le_bytes(b.0[68..72].try_into().unwrap());
    if bezel > 0.5 {
        b.floats(dice, 104, &[(0.0, bezel * 1.6); 32]);
        b.floats(dice, 232, &[(0.0, 0.0)]);
    } else if dice.below(8) > 0 {
        // Not read, so of any bits.
        b.0[104..236]
            .iter_mut()
            .for_each(|byte| *byte = dice.bits() as u8);
    }
}

fn copies(b: &mut Body, dice: &mut Dice, kind: u8) {
    let source = match dice.below(3) {
        0 => dice.bits(),
        _ => dice.below(16) as u32,
    };
    b.word(4, source);
    if kind == 5 {
        b.integers(dice, 8, &[WHOLE; 2]);
        b.integers(dice, 76, &[(0, 255); 2]);
        b.radius(dice);
        return;
    }
    b.rect(dice);
    b.floats(dice, 84, &[(0.0, 1.0)]);
    match kind {
        6 => b.radius(dice),
        _ => b.floats(dice, 88, &[(0.0, 1.0), PLACE, PLACE]),
    }
}

fn frame(b: &mut Body, dice: &mut Dice) {
    let side = (0, 4096);
    b.integers(dice, 8, &[(0, 16384), (0, 16384), side, side, side]);
    b.0[28] = dice.below(7) as u8;
    b.0[1] = dice.below(4) as u8;
}

/// The body with bytes changed at random, as far as the library still takes it: so bytes that are free, and of which
/// this file does not know, would come up.
pub fn shaken(dice: &mut Dice, mut body: [u8; BODY_LEN]) -> [u8; BODY_LEN] {
    for _ in 0..8 {
        let mut other = body;
        // Not the kind, which would make a block of another form, and not the priority.
        let at = match dice.below(BODY_LEN as u64 - 3) {
            0 => 1,
            n => n as usize + 3,
        };
        other[at] = dice.bits() as u8;
        if raw::add(&mut [0; BLOCK_LEN], 0, &other).is_ok() {
            body = other;
        }
    }
    body
}
