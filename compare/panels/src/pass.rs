//! A box pass over the channels of a canvas's pixels, red, green and blue: the pixels that come of it
//! have a top byte of 0.
use common::draw::Draw;
use common::numbers::{measure, up_to, Canvas};
use kash::glass;
use ours::surface;

/// The widest window: 2 r + 1 is at most 65536.
pub const WIDEST: usize = 32_767;

const REFUSED: u64 = 14 << 32;

#[derive(Clone, Copy, Debug)]
pub struct Pass {
    /// Along the columns, or along the rows.
    pub down: bool,
    pub r: usize,
    /// By how many bytes the source and the destination differ from what the canvas has.
    pub more: [isize; 2],
}

impl Pass {
    /// With the size of its canvas.
    pub fn draw(draw: &mut Draw, down: bool, canvas: Canvas) -> ([usize; 2], Pass) {
        let (w, h) = match canvas {
            Canvas::Any if draw.below(16) == 0 => (up_to(draw, 40), up_to(draw, 40)),
            _ => measure(draw, canvas),
        };
        let line = if down { h } else { w };
        let r = match draw.below(16) {
            0 => 0,
            1..=5 => up_to(draw, 4),
            6 => line / 2,
            7 => [line, line.saturating_sub(1)][draw.below(2) as usize],
            8 => line + draw.below(100) as usize,
            // a wide window costs the Rust as much as thousands of narrow ones
            9 if draw.below(64) == 0 => [WIDEST, 32_766, 16_383, 256][draw.below(4) as usize],
            _ => draw.below(line as u64 + 2) as usize,
        };
        let more = [0, 0];
        ([w, h], Pass { down, r, more })
    }

    /// A radius that is refused, or a slice of the wrong length.
    pub fn spoil(&mut self, draw: &mut Draw) {
        const RADII: [usize; 6] = [
            WIDEST + 1,
            WIDEST + 2,
            1 << 32,
            usize::MAX / 2,
            usize::MAX / 2 + 1,
            usize::MAX,
        ];
        match draw.below(4) {
            0 => self.r = RADII[draw.below(6) as usize],
            n => {
                let more = [-1, 1, 3][draw.below(3) as usize];
                self.more = [[more, 0], [0, more], [more, more]][n as usize - 1];
            }
        }
    }

    pub fn accepted(&self) -> bool {
        self.r <= WIDEST && self.more == [0, 0]
    }

    pub fn ours(&self, px: &mut [u32], w: usize, h: usize) {
        let src = resized(bytes(px), self.more[0]);
        let mut dst = resized(bytes(px).iter().map(|b| !b).collect(), self.more[1]);
        let before = dst.clone();
        let run = if self.down {
            surface::box_v
        } else {
            surface::box_h
        };
        match run(&src, &mut dst, w, h, self.r) {
            0 => store(px, &dst),
            answer => {
                assert_eq!(answer, REFUSED, "the answer to {self:?}");
                assert!(dst == before, "a refused pass stored: {self:?}");
            }
        }
    }

    pub fn rust(&self, px: &mut [u32], w: usize, h: usize) {
        let src = bytes(px);
        let mut dst = vec![0; src.len()];
        let run = if self.down {
            glass::box_v
        } else {
            glass::box_h
        };
        run(&src, &mut dst, w, h, self.r);
        store(px, &dst);
    }
}

fn bytes(px: &[u32]) -> Vec<u8> {
    px.iter()
        .flat_map(|p| p.to_be_bytes().into_iter().skip(1))
        .collect()
}

fn store(px: &mut [u32], bytes: &[u8]) {
    for (p, c) in px.iter_mut().zip(bytes.chunks_exact(3)) {
        *p = u32::from_be_bytes([0, c[0], c[1], c[2]]);
    }
}

fn resized(mut bytes: Vec<u8>, more: isize) -> Vec<u8> {
    bytes.resize(bytes.len().saturating_add_signed(more), 0x5A);
    bytes
}
