//! A secure frame.
use common::draw::Draw;
use common::layers::kash::TAGS;
use common::numbers::{measure, up_to, Canvas, FAR};
use kash::glass::GlassSurface;
use ours::panels::{self, Window};

/// The longest side, and the thickest border.
const LONGEST: u32 = 4096;

#[derive(Clone, Copy, Debug)]
pub struct Frame {
    pub window: Window,
    pub tag: u8,
    pub tint: bool,
    pub xray: bool,
}

impl Frame {
    /// With the size of its canvas.
    pub fn draw(draw: &mut Draw, canvas: Canvas) -> ([usize; 2], Frame) {
        let (w, h) = canvas_size(draw, canvas);
        let [x, width] = across(draw, w as u32);
        let [y, height] = down(draw, h as u32);
        let border = match draw.below(8) {
            0 => [0, 1, 3][draw.below(3) as usize],
            1..=4 => [3, 4, 5, 6][draw.below(4) as usize],
            5 => width / 2 + draw.below(2) as u32,
            6 => [28, 29, LONGEST][draw.below(3) as usize],
            _ => draw.below(14) as u32,
        };
        let window = Window {
            x,
            y,
            width,
            height,
            border,
        };
        let frame = Frame {
            window,
            tag: draw.below(7) as u8,
            tint: draw.below(2) == 0,
            xray: draw.below(3) == 0,
        };
        ([w, h], frame)
    }

    /// A tag that is none, or a frame that ends beyond the canvas's w columns.
    pub fn spoil(&mut self, draw: &mut Draw, w: usize) {
        match draw.below(4) {
            0 => self.tag = [7, 8, 128, 255][draw.below(4) as usize],
            1 => self.window.width = w as u32 - self.window.x + 1,
            2 => self.window.x = w as u32 + 1,
            _ => (self.window.x, self.window.width) = (u32::MAX, 1 + draw.below(9) as u32),
        }
    }

    pub fn accepted(&self, w: usize) -> bool {
        let at = &self.window;
        at.x + at.width <= w as u32
            && [at.x, at.y].iter().all(|v| *v <= FAR as u32)
            && [at.width, at.height, at.border]
                .iter()
                .all(|v| *v <= LONGEST)
            && (self.tag as usize) < TAGS.len()
    }

    pub fn ours(&self, px: &mut [u32], w: usize, h: usize) {
        panels::frame(px, [w, h], self.window, self.tag, [self.tint, self.xray]);
    }

    pub fn rust(&self, px: &mut [u32], w: usize) {
        let at = self.window;
        let surface = GlassSurface {
            x: at.x,
            y: at.y,
            width: at.width,
            height: at.height,
            border_thickness: at.border,
        };
        let tag = TAGS[self.tag as usize];
        surface.composite_secure_frame(px, w as u32, tag, self.tint, self.xray);
    }

    /// As [`crate::case::Case::words`] says.
    pub fn words(&self) -> [u32; 7] {
        let at = self.window;
        let flags = self.tint as u32 + 2 * self.xray as u32;
        [
            at.x,
            at.y,
            at.width,
            at.height,
            at.border,
            self.tag as u32,
            flags,
        ]
    }
}

/// Large enough to show a window below the 28 rows of its title bar, as a rule.
fn canvas_size(draw: &mut Draw, canvas: Canvas) -> (usize, usize) {
    const RECORDED: [(usize, usize); 4] = [(16, 40), (20, 32), (10, 64), (16, 40)];
    match canvas {
        Canvas::Recorded => RECORDED[draw.below(4) as usize],
        Canvas::Any if draw.below(4) > 0 => (4 + up_to(draw, 44), 24 + up_to(draw, 24)),
        _ => measure(draw, canvas),
    }
}

/// Sides at which something of a frame begins or ends.
fn side(draw: &mut Draw) -> u32 {
    [0, 1, 4, 7, 8, 9, 10, 28, 29, 32, 33, 34][draw.below(12) as usize]
}

/// A column and a width that end on the canvas.
fn across(draw: &mut Draw, w: u32) -> [u32; 2] {
    let x = match draw.below(4) {
        0..=1 => 0,
        2 => draw.below(w.min(6) as u64) as u32,
        _ => draw.below(w as u64 + 1) as u32,
    };
    let rest = w - x;
    let width = match draw.below(8) {
        0..=2 => rest,
        3..=5 => side(draw).min(rest),
        _ => draw.below(rest as u64 + 1) as u32,
    };
    [x, width]
}

/// A row and a height.
fn down(draw: &mut Draw, h: u32) -> [u32; 2] {
    let y = match draw.below(8) {
        0..=3 => 0,
        4..=5 => draw.below(h.min(6) as u64) as u32,
        6 => [h, h + 1, h.saturating_sub(1), FAR as u32][draw.below(4) as usize],
        _ => draw.below(h as u64) as u32,
    };
    let height = match draw.below(8) {
        0..=1 => h.saturating_sub(y),
        2..=3 => side(draw),
        4 => [LONGEST, h + 1, h + 4, h + 5][draw.below(4) as usize],
        _ => draw.below(h as u64 + 8) as u32,
    };
    [y, height.min(LONGEST)]
}
