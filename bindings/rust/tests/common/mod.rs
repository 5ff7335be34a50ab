//! Blocks by their offsets, for bytes that the typed layers cannot make; what a call is lent; and layers and
//! pictures drawn at random.
#![allow(dead_code)] // no test uses all of it
use tiglostrema::raw::{self, BLOCK_LEN};
use tiglostrema::{
    Color, Fill, Genie, Glass, IRect, Layer, Point, Rect, Refusal, Rundown, ScaledCopy,
    StraightCopy,
};

/// A clip that covers the canvases of these tests.
pub const CLIP: [i32; 4] = [0, 0, 64, 64];

/// An exact copy of source 0 at (0, 0).
pub fn copy(priority: u16) -> Vec<u8> {
    let mut block = vec![0; BLOCK_LEN];
    block[0] = 5;
    block[2..4].copy_from_slice(&priority.to_le_bytes());
    block[76] = 255;
    for (i, side) in CLIP.into_iter().enumerate() {
        block[236 + 4 * i..240 + 4 * i].copy_from_slice(&side.to_le_bytes());
    }
    seal(block)
}

/// The block of one layer.
pub fn block(priority: u16, layer: impl Into<Layer>) -> Vec<u8> {
    let mut rundown = Rundown::new();
    rundown.add(priority, layer).expect("the layer is in range");
    rundown.into_bytes()
}

/// A panel with a bezel and an entry at a place of its table, both by their bits, whether they suit each
/// other or not.
pub fn bent(priority: u16, bezel: u32, place: usize, entry: u32) -> Vec<u8> {
    let panel = block(priority, Glass::new(Rect::new(0.0, 0.0, 4.0, 2.0), 0.0));
    let panel = patched(panel, 68, &bezel.to_le_bytes());
    patched(panel, 104 + 4 * place, &entry.to_le_bytes())
}

/// The block with other bytes at that offset, and the check that belongs to them.
pub fn patched(mut block: Vec<u8>, at: usize, bytes: &[u8]) -> Vec<u8> {
    block[at..at + bytes.len()].copy_from_slice(bytes);
    seal(block)
}

/// Writes the check: the sum of each byte times its place, counted from 1.
pub fn seal(mut block: Vec<u8>) -> Vec<u8> {
    let places = block[..508].iter().zip(1u32..);
    let check: u32 = places.map(|(byte, place)| u32::from(*byte) * place).sum();
    block[508..].copy_from_slice(&check.to_le_bytes());
    block
}

/// What a play is lent, at once or in steps. The pixels and the scratch are no zeros, so that a change would
/// show.
#[derive(Clone, PartialEq, Debug)]
pub struct Lent {
    pub rundown: Vec<u8>,
    pub width: u32,
    pub height: u32,
    pub canvas: Vec<u32>,
    pub table: Vec<u32>,
    pub pool: Vec<u32>,
    pub a: Vec<u8>,
    pub b: Vec<u8>,
}

impl Lent {
    pub fn new(rundown: Vec<u8>) -> Lent {
        Lent {
            rundown,
            width: 4,
            height: 2,
            canvas: (0..8).map(|i| 0xAB00_0000 + i).collect(),
            table: vec![2, 1],
            pool: vec![0x112233, 0x445566],
            a: (0..24).collect(),
            b: (100..124).collect(),
        }
    }

    pub fn play(&mut self) -> Result<usize, Refusal> {
        raw::play(
            &self.rundown,
            self.width,
            self.height,
            &mut self.canvas,
            &self.table,
            &self.pool,
            &mut self.a,
            &mut self.b,
        )
    }

    pub fn begin(&self) -> Result<usize, Refusal> {
        raw::begin(
            &self.rundown,
            self.width,
            self.height,
            &self.canvas,
            &self.table,
            &self.pool,
            &self.a,
            &self.b,
        )
    }

    pub fn step(&mut self, last: Option<u16>) -> Result<u16, Refusal> {
        raw::step(
            &self.rundown,
            self.width,
            self.height,
            &mut self.canvas,
            &self.table,
            &self.pool,
            &mut self.a,
            &mut self.b,
            last,
        )
    }
}

/// A width, a height and pixels.
pub type Picture = (u32, u32, Vec<u32>);

/// Marsaglia's xorshift.
pub struct Draw(pub u64);

impl Draw {
    pub fn next(&mut self) -> u64 {
        self.0 ^= self.0 << 13;
        self.0 ^= self.0 >> 7;
        self.0 ^= self.0 << 17;
        self.0
    }

    pub fn below(&mut self, end: u64) -> u64 {
        (self.next() >> 11) % end
    }

    /// A rectangle about a canvas of some thirty pixels a side.
    pub fn rect(&mut self) -> Rect {
        let [x, y, w, h] = [(); 4].map(|()| self.below(200) as f32 / 5.0);
        Rect::new(x - 8.0, y - 8.0, w, h)
    }

    /// A panel whose table suits its bezel, or goes beyond it a little.
    pub fn panel(&mut self, rect: Rect, blur: f32) -> Glass {
        let bezel = self.below(80) as f32 / 20.0;
        let mut table = [0.0; 33];
        table[self.below(32) as usize] = bezel * (self.below(34) as f32 / 20.0);
        Glass::new(rect, blur).with_bezel(bezel, table)
    }

    /// A layer that is in range but for one of about twenty.
    pub fn layer(&mut self) -> Layer {
        let (source, rect) = (self.below(4) as u32, self.rect());
        let size = (self.below(1000) as f32 / 10.0) - 5.0;
        let (x, y) = (self.below(50) as i32 - 10, self.below(50) as i32 - 10);
        let clip = IRect::new(x, y, x + 30, if y == 0 { 16385 } else { y + 30 });
        match self.below(7) {
            0 => Fill::new(rect, Color::WHITE).with_radius(size).into(),
            1 => self.panel(rect, size * 0.7).into(),
            2 => Genie::new(source, rect, Point::new(size, 20.0), 0.5).into(),
            3 => ScaledCopy::new(source, rect).with_clip(clip).into(),
            4 => StraightCopy::new(source, x, y).with_alpha(99).into(),
            _ => StraightCopy::new(source, x, y).with_clip(clip).into(),
        }
    }

    /// One of 300, whose low bytes say nothing of their order.
    pub fn priority(&mut self) -> u16 {
        (self.below(300) * 218) as u16
    }

    /// The rundown with its blocks in another order.
    pub fn shuffled(&mut self, rundown: &Rundown) -> Rundown {
        let mut blocks: Vec<&[u8]> = rundown.as_bytes().chunks(BLOCK_LEN).collect();
        for end in (1..blocks.len()).rev() {
            blocks.swap(end, self.below(end as u64 + 1) as usize);
        }
        let bytes = blocks.concat();
        let shuffled = Rundown::from_bytes(&bytes).expect("the same layers");
        assert!(shuffled.as_bytes() == bytes, "they are kept");
        shuffled
    }

    /// A picture of up to 20 pixels a side.
    pub fn picture(&mut self) -> Picture {
        let (width, height) = (1 + self.below(20) as u32, 1 + self.below(20) as u32);
        let pixels = (0..width * height).map(|_| self.next() as u32);
        (width, height, pixels.collect())
    }
}
