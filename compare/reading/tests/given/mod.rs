//! A canvas, two sources, and blocks for them.
use reading::{checked, Body, Show, BLOCK, BODY};

pub const W: u32 = 20;
pub const H: u32 = 10;

/// Sources of 4 by 3 and of 1 by 1.
const TABLE: [u32; 4] = [4, 3, 1, 1];

pub fn block(kind: u8, priority: u16, set: &[(usize, u32)]) -> [u8; BLOCK] {
    let mut body: Body = [0; BODY];
    body[0] = kind;
    body[2..4].copy_from_slice(&priority.to_le_bytes());
    let clip = [(244, W), (248, H)];
    for (at, word) in clip.iter().chain(set) {
        body[*at..*at + 4].copy_from_slice(&word.to_le_bytes());
    }
    checked(&body)
}

pub fn show(rundown: &[u8]) -> Show<'_> {
    Show {
        rundown,
        width: W,
        height: H,
        canvas: (W * H) as usize,
        table: &TABLE,
        pool: 13,
        scratch: [1000, 1000],
    }
}

/// An exact copy of the source at (x, y).
pub fn exact(priority: u16, source: u32, x: u32, y: u32) -> [u8; BLOCK] {
    block(5, priority, &[(4, source), (8, x), (12, y), (76, 255)])
}

pub fn float(at: usize, v: f32) -> (usize, u32) {
    (at, v.to_bits())
}

/// A glass of 2 by 2 at (x, 0) without blur: its window reaches three pixels further.
pub fn glass(priority: u16, x: f32) -> [u8; BLOCK] {
    let rect = [float(32, x), float(40, 2.0), float(44, 2.0)];
    block(4, priority, &rect)
}
