//! Faults to be put into a block that passes, each with the cause that it is to be refused for.
use super::draw::{
    bend_most, beyond, checked, float_at, integer_beyond, pick, put_float, put_word,
};
use super::draw::{within, NANS, TABLE_RANGE};
use super::fields::{Form, BEZEL, FLAGS, KIND, PAINT, TABLE, TABLE_END, TAG};
use crate::draw::Draw;
use reading::{Body, Cause, BLOCK, BODY};

#[derive(Clone, Copy, PartialEq, Eq, Debug)]
pub enum Fault {
    Check,
    Kind,
    Paint,
    Tag,
    Flag,
    UnusedByte,
    UnusedNan,
    Float,
    Entry,
    LastEntry,
    Integer,
    Bend,
}

pub const FAULTS: [Fault; 12] = [
    Fault::Check,
    Fault::Kind,
    Fault::Paint,
    Fault::Tag,
    Fault::Flag,
    Fault::UnusedByte,
    Fault::UnusedNan,
    Fault::Float,
    Fault::Entry,
    Fault::LastEntry,
    Fault::Integer,
    Fault::Bend,
];

impl Fault {
    pub fn cause(self) -> Cause {
        match self {
            Fault::Check => Cause::Check,
            Fault::Kind | Fault::Paint | Fault::Tag => Cause::Form,
            Fault::Flag | Fault::UnusedByte | Fault::UnusedNan => Cause::Form,
            Fault::Float | Fault::Entry | Fault::LastEntry => Cause::Float,
            Fault::Integer => Cause::Integer,
            Fault::Bend => Cause::Bend,
        }
    }

    /// Whether a block of this form can have it.
    fn suits(self, form: &Form, body: &Body) -> bool {
        match self {
            Fault::Paint => form.kind == 1,
            Fault::Tag => form.kind == 8,
            Fault::Float => !form.floats.is_empty(),
            Fault::Entry | Fault::LastEntry | Fault::Bend => {
                form.kind == 4 && float_at(body, BEZEL) > 0.5
            }
            _ => true,
        }
    }

    /// A fault for this block.
    pub fn draw(draw: &mut Draw, form: &Form, body: &Body) -> Fault {
        loop {
            let fault = pick(draw, &FAULTS);
            if fault.suits(form, body) {
                return fault;
            }
        }
    }

    /// Puts the fault in. A wrong check comes last: see [`spoilt_check`].
    pub fn put(self, draw: &mut Draw, form: &Form, body: &mut Body) {
        match self {
            Fault::Check => {}
            Fault::Kind => body[KIND] = pick(draw, &[0, 9, 10, 16, 128, 129, 255]),
            Fault::Paint => body[PAINT] = pick(draw, &[4, 5, 8, 127, 128, 255]),
            Fault::Tag => body[TAG] = pick(draw, &[7, 8, 16, 127, 128, 255]),
            Fault::Flag => {
                let other: Vec<u8> = (0..8).map(|i| 1 << i).collect();
                let other: Vec<u8> = other.into_iter().filter(|b| b & form.flags == 0).collect();
                body[FLAGS] |= pick(draw, &other);
            }
            Fault::UnusedByte => {
                let at = pick(draw, &form.unused);
                body[at] |= match draw.below(2) {
                    0 => 1 << draw.below(8),
                    _ => 1 + draw.below(255) as u8,
                };
            }
            Fault::UnusedNan => {
                let words: Vec<usize> = form
                    .unused
                    .windows(4)
                    .filter(|w| w[0] % 4 == 0 && w[3] == w[0] + 3)
                    .map(|w| w[0])
                    .collect();
                let at = pick(draw, &words);
                put_word(body, at, pick(draw, &NANS));
            }
            Fault::Float => {
                let f = pick(draw, &form.floats);
                put_float(body, f.at, beyond(draw, f.lo, f.hi));
            }
            Fault::Entry => {
                let at = TABLE + 4 * draw.below(33) as usize;
                put_float(body, at, beyond(draw, TABLE_RANGE.0, TABLE_RANGE.1));
            }
            Fault::LastEntry => {
                let v = within(draw, f32::from_bits(1), TABLE_RANGE.1);
                put_float(body, TABLE_END, v);
            }
            Fault::Integer => {
                let f = pick(draw, &form.integers);
                put_word(body, f.at, integer_beyond(draw, &f) as u32);
            }
            Fault::Bend => tear(draw, body),
        }
    }
}

/// An entry above what the bezel allows, mostly by one float: any but the last, which has to be 0.
fn tear(draw: &mut Draw, body: &mut Body) {
    let any = draw.below(32) as usize;
    let from = pick(draw, &[0, 31, any]);
    // one that is out of its range stays so
    let mut entries = (from..from + 32).map(|i| TABLE + 4 * (i % 32));
    let fits = |at: &usize| (TABLE_RANGE.0..=TABLE_RANGE.1).contains(&float_at(body, *at));
    let at = entries.find(fits).expect("a table has few faults");
    let least = bend_most(float_at(body, BEZEL)).next_up();
    let v = match draw.below(4) {
        0 => within(draw, least, TABLE_RANGE.1),
        _ => least,
    };
    put_float(body, at, v);
}

/// The block of this body with another check: off by a little, in one bit, or in its upper half alone.
pub fn spoilt_check(draw: &mut Draw, body: &Body) -> [u8; BLOCK] {
    let mut block = checked(body);
    let right = u32::from_le_bytes(block[BODY..].try_into().expect("four bytes"));
    let other = match draw.below(8) {
        0 => right.wrapping_add(1),
        1 => right.wrapping_sub(1),
        2 => right.wrapping_add(1 << 16),
        3 => right.wrapping_sub(1 << 16),
        4 => right ^ (1 << draw.below(32)),
        5 => right.swap_bytes(),
        6 => 0,
        _ => draw.bits() as u32,
    };
    let other = if other == right { right ^ 1 } else { other };
    block[BODY..].copy_from_slice(&other.to_le_bytes());
    block
}
