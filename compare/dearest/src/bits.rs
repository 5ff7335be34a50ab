//! Blurs one after the other by their bits, on one small canvas: in a sample every NaN, else every float there is.
use common::sorts::Tally;
use ours::surface;
use reading::{dearest, packed, BLOCK};

/// A side on which every k leaves a remainder.
const SIDE: u32 = 5;

/// What the block holds before.
const FILLED: u8 = 0xA5;

/// Every pattern of a NaN: both signs, and every fraction but 0, which is an infinity's.
const NANS: u64 = (1 << 24) - 2;

pub fn patterns(all: bool) -> u64 {
    if all {
        1 << 32
    } else {
        NANS
    }
}

/// Pattern number i.
pub fn pattern(all: bool, i: u64) -> u32 {
    if all {
        i as u32
    } else {
        ((i & 1) << 31) as u32 | 0x7F80_0000 | (1 + (i >> 1) as u32)
    }
}

/// The answers, and the bytes left, beside each other.
pub fn ask(bits: u32, tally: &mut Tally) {
    let blur = f32::from_bits(bits);
    let (mut mine, mut theirs) = ([FILLED; BLOCK], [FILLED; BLOCK]);
    let read = dearest(SIDE, SIDE, blur, &mut theirs);
    let ours = surface::dearest(SIDE, SIDE, blur, &mut mine);
    tally.cases += 1;
    tally.accepted += read.is_ok() as u64;
    if ours != packed(read) || mine != theirs {
        tally.differs(|| format!("blur {bits:08X}: {ours:X}, the reading {read:?}"));
    }
}
