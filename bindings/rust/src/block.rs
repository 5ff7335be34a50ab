//! Where the fields of a layer stand in its block of 512 bytes, all little-endian. What the fields
//! may hold is not tested here: the library does that.
use crate::{Color, IRect, Point, Rect};

/// The bytes of a block.
pub(crate) const LEN: usize = 512;
/// The bytes that a caller gives; the check behind them is the library's.
pub(crate) const BODY: usize = 508;

pub(crate) const KIND: usize = 0;
pub(crate) const FLAGS: usize = 1;
pub(crate) const PRIORITY: usize = 2;
pub(crate) const SOURCE: usize = 4;
pub(crate) const X: usize = 8;
pub(crate) const Y: usize = 12;
pub(crate) const WIDTH: usize = 16;
pub(crate) const HEIGHT: usize = 20;
pub(crate) const BORDER: usize = 24;
pub(crate) const TAG: usize = 28;
pub(crate) const PAINT: usize = 29;
pub(crate) const RECT: usize = 32;
pub(crate) const RADIUS: usize = 48;
pub(crate) const BLUR: usize = 52;
pub(crate) const COLOR: usize = 56;
pub(crate) const SATURATION: usize = 60;
pub(crate) const BRIGHTNESS: usize = 64;
pub(crate) const BEZEL: usize = 68;
pub(crate) const SPEC: usize = 72;
pub(crate) const ALPHA: usize = 76;
pub(crate) const DIM: usize = 80;
pub(crate) const FLOAT_ALPHA: usize = 84;
pub(crate) const T: usize = 88;
pub(crate) const TARGET: usize = 92;
pub(crate) const STROKE_WIDTH: usize = 100;
pub(crate) const TABLE: usize = 104;
pub(crate) const CLIP: usize = 236;
pub(crate) const COLOR2: usize = 252;
pub(crate) const NUMBERS: usize = 256;

/// A block that is being written. What no field sets stays 0, as the library asks.
pub(crate) struct Writer {
    bytes: [u8; BODY],
}

impl Writer {
    pub(crate) fn new(kind: u8, priority: u16) -> Writer {
        let mut block = Writer { bytes: [0; BODY] };
        block.u8(KIND, kind);
        block.put(PRIORITY, priority.to_le_bytes());
        block
    }

    pub(crate) fn into_bytes(self) -> [u8; BODY] {
        self.bytes
    }

    fn put<const N: usize>(&mut self, at: usize, bytes: [u8; N]) {
        self.bytes[at..at + N].copy_from_slice(&bytes);
    }

    pub(crate) fn u8(&mut self, at: usize, value: u8) {
        self.put(at, [value]);
    }

    pub(crate) fn u32(&mut self, at: usize, value: u32) {
        self.put(at, value.to_le_bytes());
    }

    pub(crate) fn i32(&mut self, at: usize, value: i32) {
        self.put(at, value.to_le_bytes());
    }

    pub(crate) fn f32s(&mut self, at: usize, values: &[f32]) {
        for (i, value) in values.iter().enumerate() {
            self.put(at + 4 * i, value.to_le_bytes());
        }
    }

    pub(crate) fn f32(&mut self, at: usize, value: f32) {
        self.f32s(at, &[value]);
    }

    pub(crate) fn rect(&mut self, rect: Rect) {
        self.f32s(RECT, &[rect.x, rect.y, rect.w, rect.h]);
    }

    pub(crate) fn point(&mut self, at: usize, point: Point) {
        self.f32s(at, &[point.x, point.y]);
    }

    pub(crate) fn color(&mut self, at: usize, color: Color) {
        self.put(at, [color.r, color.g, color.b, color.a]);
    }

    pub(crate) fn clip(&mut self, clip: IRect) {
        for (i, side) in [clip.x0, clip.y0, clip.x1, clip.y1].into_iter().enumerate() {
            self.i32(CLIP + 4 * i, side);
        }
    }
}

/// A block that is being read.
#[derive(Clone, Copy)]
pub(crate) struct Reader<'a> {
    bytes: &'a [u8],
}

impl<'a> Reader<'a> {
    /// Reads a block of 512 bytes.
    pub(crate) fn new(bytes: &'a [u8]) -> Reader<'a> {
        debug_assert_eq!(bytes.len(), LEN);
        Reader { bytes }
    }

    fn get<const N: usize>(&self, at: usize) -> [u8; N] {
        std::array::from_fn(|i| self.bytes[at + i])
    }

    pub(crate) fn priority(&self) -> u16 {
        u16::from_le_bytes(self.get(PRIORITY))
    }

    pub(crate) fn u8(&self, at: usize) -> u8 {
        self.bytes[at]
    }

    pub(crate) fn u32(&self, at: usize) -> u32 {
        u32::from_le_bytes(self.get(at))
    }

    pub(crate) fn i32(&self, at: usize) -> i32 {
        i32::from_le_bytes(self.get(at))
    }

    pub(crate) fn f32(&self, at: usize) -> f32 {
        f32::from_le_bytes(self.get(at))
    }

    pub(crate) fn f32s<const N: usize>(&self, at: usize) -> [f32; N] {
        std::array::from_fn(|i| self.f32(at + 4 * i))
    }

    pub(crate) fn rect(&self) -> Rect {
        let [x, y, w, h] = self.f32s(RECT);
        Rect::new(x, y, w, h)
    }

    pub(crate) fn point(&self, at: usize) -> Point {
        let [x, y] = self.f32s(at);
        Point::new(x, y)
    }

    pub(crate) fn color(&self, at: usize) -> Color {
        let [r, g, b, a] = self.get(at);
        Color::rgba(r, g, b, a)
    }

    pub(crate) fn clip(&self) -> IRect {
        let [x0, y0, x1, y1] = std::array::from_fn(|i| self.i32(CLIP + 4 * i));
        IRect::new(x0, y0, x1, y1)
    }
}
