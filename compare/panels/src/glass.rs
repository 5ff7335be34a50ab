//! A glass panel.
use common::draw::Draw;
use common::numbers::{self, *};
use kash::color::Color;
use kash::geom::Rect;
use kash::gfx;
use kash::glass::{GlassScratch, GlassStyle};
use ours::panels::{self, Style};
use ours::Onto;

const STRONGEST_BLUR: f32 = 64.0;
const WIDEST_BEZEL: f32 = 256.0;
const FARTHEST: f32 = 1024.0;

/// What scratch holds before.
const FILLED: u8 = 0x5A;

/// The table of displacements; its last entry is 0.
#[derive(Clone, Copy, Debug)]
pub enum Table {
    /// Entry i is the first number + i × the second.
    Ramp(f32, f32),
    /// Numbers that this seed settles.
    Random(u64),
    /// No numbers: a table that is not read.
    None,
}

impl Table {
    pub fn entries(self) -> [f32; 33] {
        let mut entries = match self {
            Table::Ramp(from, step) => std::array::from_fn(|i| from + step * i as f32),
            Table::Random(seed) => {
                let mut draw = Draw::new(seed, 0);
                let most = [1.0, 8.0, 40.0, FARTHEST][draw.below(4) as usize];
                std::array::from_fn(|_| unit(&mut draw) * most)
            }
            Table::None => [f32::NAN; 33],
        };
        entries[32] = 0.0;
        entries
    }
}

#[derive(Clone, Copy, Debug)]
pub struct Glass {
    pub rect: [f32; 4],
    pub style: Style,
    pub table: Table,
    /// By how many bytes each scratch slice is longer than is needed.
    pub spare: [isize; 2],
    /// Of no effect, as the Rust's highlights are off.
    dark: bool,
}

impl Glass {
    /// With its canvas.
    pub fn draw(draw: &mut Draw, canvas: Canvas) -> (Onto, Glass) {
        let (w, h) = match canvas {
            Canvas::Any if draw.below(4) == 0 => (up_to(draw, 30), up_to(draw, 30)),
            _ => measure(draw, canvas),
        };
        let rect = panel(draw, w, h);
        let style = style(draw, &rect);
        let table = table(draw, style.bezel, canvas);
        let onto = Onto {
            w,
            h,
            clip: clip(draw, w as i32, h as i32),
        };
        let spare = [0, 1].map(|_| [0, 0, 1, 40][draw.below(4) as usize]);
        let dark = draw.below(2) == 0;
        let glass = Glass {
            rect,
            style,
            table,
            spare,
            dark,
        };
        (onto, glass)
    }

    /// A slice, or both, one byte too short.
    pub fn spoil(&mut self, draw: &mut Draw) {
        self.spare = [[-1, 0], [0, -1], [-1, -1]][draw.below(3) as usize];
    }

    pub fn accepted(&self, onto: &Onto) -> bool {
        let s = &self.style;
        let is_read = s.bezel > 0.5;
        numbers::accepted(onto, self.rect, s.radius)
            && within(s.blur, 0.0, STRONGEST_BLUR)
            && within(s.saturation, 0.0, 8.0)
            && within(s.brightness, -1.0, 1.0)
            && within(s.bezel, 0.0, WIDEST_BEZEL)
            && within(s.spec, 0.0, 1.0)
            && (!is_read
                || self
                    .table
                    .entries()
                    .iter()
                    .all(|v| within(*v, 0.0, FARTHEST)))
            && self.spare.iter().all(|n| *n >= 0)
    }

    /// The window that the panel shows, as x0, y0, x1, y1 on the canvas: as 01 says it.
    pub fn window(&self, onto: &Onto) -> [i32; 4] {
        let is_read = self.style.bezel > 0.5;
        let largest = if is_read {
            self.table.entries().into_iter().fold(0.0, f32::max)
        } else {
            0.0
        };
        let more = (2.0 * self.style.blur + largest + 3.0).ceil() as i32;
        let [x0, y0, x1, y1] = outer(self.rect);
        let (w, h) = (onto.w as i32, onto.h as i32);
        [
            (x0 - more).max(0),
            (y0 - more).max(0),
            (x1 + more).min(w),
            (y1 + more).min(h),
        ]
    }

    /// Whether the panel has no pixel under the clip.
    pub fn is_empty(&self, onto: &Onto) -> bool {
        let [_, _, rw, rh] = self.rect;
        let [x0, y0, x1, y1] = outer(self.rect);
        let [cx0, cy0, cx1, cy1] = onto.clip;
        rw < 2.0
            || rh < 2.0
            || x0.max(cx0).max(0) >= x1.min(cx1).min(onto.w as i32)
            || y0.max(cy0).max(0) >= y1.min(cy1).min(onto.h as i32)
    }

    /// A cell of the small picture stands for k by k pixels.
    pub fn k(&self) -> i32 {
        match self.style.blur {
            b if b < 2.5 => 1,
            b if b < 9.0 => 2,
            _ => 4,
        }
    }

    /// How many bytes each scratch slice needs.
    pub fn need(&self, onto: &Onto) -> usize {
        if self.is_empty(onto) {
            return 0;
        }
        let [x0, y0, x1, y1] = self.window(onto);
        let cells = |n: i32| (n as usize).div_ceil(self.k() as usize);
        3 * cells(x1 - x0) * cells(y1 - y0)
    }

    /// On scratch that is filled before: what is past the need, and all of it where nothing may be
    /// painted, has to stay so.
    pub fn ours(&self, px: &mut [u32], onto: Onto) {
        let fits = |n: usize| (1..=4096).contains(&n);
        let is_canvas = fits(onto.w) && fits(onto.h) && px.len() == onto.w * onto.h;
        let need = if is_canvas { self.need(&onto) } else { 64 };
        let [mut a, mut b] = self
            .spare
            .map(|n| vec![FILLED; need.saturating_add_signed(n)]);
        panels::glass(
            px,
            onto,
            self.rect,
            self.style,
            &self.table.entries(),
            &mut a,
            &mut b,
        );
        let has_room = a.len() >= need && b.len() >= need;
        let used = if is_canvas && has_room { need } else { 0 };
        for slice in [a, b] {
            let rest = slice.iter().skip(used);
            assert!(
                rest.copied().all(|v| v == FILLED),
                "scratch past the need: {self:?} on {onto:?}"
            );
        }
    }

    pub fn rust(&self, canvas: &mut gfx::Canvas) {
        kash::give_table(self.table.entries());
        let s = self.style;
        let [r, g, b, a] = s.tint;
        let style = GlassStyle {
            radius: s.radius,
            blur: s.blur,
            tint: Color::rgba(r, g, b, a),
            saturation: s.saturation,
            brightness: s.brightness,
            bezel: s.bezel,
            refraction: 1.0,
            spec: s.spec,
            dark: self.dark,
        };
        let [x, y, w, h] = self.rect;
        canvas.glass(Rect::new(x, y, w, h), &style, &mut GlassScratch::default());
    }

    /// As [`crate::case::Case::words`] says.
    pub fn words(&self) -> [u32; 13] {
        let s = self.style;
        let [x, y, w, h] = self.rect.map(f32::to_bits);
        let [r, g, b, a] = s.tint;
        let tint = u32::from_be_bytes([a, r, g, b]);
        let [radius, blur, saturation] = [s.radius, s.blur, s.saturation].map(f32::to_bits);
        let [brightness, bezel, spec] = [s.brightness, s.bezel, s.spec].map(f32::to_bits);
        let [from, step] = match self.table {
            Table::Ramp(from, step) => [from, step].map(f32::to_bits),
            _ => panic!("a record has a ramp"),
        };
        [
            x, y, w, h, radius, blur, tint, saturation, brightness, bezel, spec, from, step,
        ]
    }
}

/// The float just below or just above x.
fn around(draw: &mut Draw, x: f32) -> f32 {
    f32::from_bits(x.to_bits() - 1 + 2 * draw.below(2) as u32)
}

/// The pixels that a rectangle touches.
fn outer([x, y, w, h]: [f32; 4]) -> [i32; 4] {
    let [x0, y0] = [x, y].map(|v| v.floor() as i32);
    let [x1, y1] = [x + w, y + h].map(|v| v.ceil() as i32);
    [x0, y0, x1, y1]
}

fn panel(draw: &mut Draw, w: usize, h: usize) -> [f32; 4] {
    let [x, y, rw, rh] = rect(draw, w, h);
    match draw.below(16) {
        0 => {
            let side = around(draw, 2.0);
            [x, y, pick(draw, &[1.0, 1.999, 2.0, side]), rh.max(2.0)]
        }
        1 => {
            let side = around(draw, 2.0);
            [x, y, rw.max(2.0), pick(draw, &[1.0, 1.999, 2.0, side])]
        }
        2..=9 => [x, y, rw.max(2.0), rh.max(2.0)],
        _ => [x, y, rw, rh],
    }
}

fn style(draw: &mut Draw, rect: &[f32; 4]) -> Style {
    let flat = draw.below(3) == 0;
    let sides = [rect[2], rect[3]];
    Style {
        radius: match draw.below(4) {
            _ if flat => pick(draw, &[0.0, -0.0, 0.3, 0.49]),
            0 => pick(draw, &[0.0, 0.49, 0.5, 0.51]),
            _ => radius(draw, sides),
        },
        blur: blur(draw),
        tint: [
            draw.byte(),
            draw.byte(),
            draw.byte(),
            match draw.below(2) {
                0 => [0, 1, 254, 255][draw.below(4) as usize],
                _ => draw.byte(),
            },
        ],
        saturation: match draw.below(4) {
            0 => pick(draw, &[0.0, -0.0, 1.0, 8.0]),
            1 => 1.0,
            2 => 8.0 * unit(draw),
            _ => 2.0 * unit(draw),
        },
        brightness: match draw.below(4) {
            0 => pick(draw, &[-1.0, 0.0, -0.0, 1.0]),
            1 => 0.0,
            2 => 2.0 * unit(draw) - 1.0,
            _ => 0.2 * unit(draw) - 0.1,
        },
        bezel: match draw.below(8) {
            _ if flat => pick(draw, &[0.0, -0.0, 0.3, 0.49]),
            0 => {
                let near = around(draw, 0.5);
                pick(draw, &[0.0, 0.49, 0.5, 0.51, near])
            }
            1 => pick(draw, &[WIDEST_BEZEL, 100.0, 30.0]),
            2 => 1.0,
            3 => 0.5 + unit(draw),
            _ => 12.0 * unit(draw),
        },
        spec: match draw.below(8) {
            _ if flat => pick(draw, &[0.0, -0.0]),
            0 => pick(draw, &[0.0, -0.0]),
            1 => 1.0,
            2 => minute(draw),
            _ => unit(draw),
        },
    }
}

fn blur(draw: &mut Draw) -> f32 {
    match draw.below(16) {
        0 => pick(draw, &[0.0, -0.0]),
        1 => minute(draw),
        2..=3 => pick(draw, &[0.44, 0.45, 0.46]),
        // where k, the passes or their radius change
        4..=6 => pick(draw, &[2.5, 9.0, 6.0, 12.0, 2.2, 4.3]),
        7..=9 => {
            let near = pick(draw, &[0.45, 2.5, 9.0, 6.0, 12.0]);
            around(draw, near)
        }
        10 => pick(draw, &[STRONGEST_BLUR, 40.0]),
        11 => STRONGEST_BLUR * unit(draw),
        12..=13 => 2.5 * unit(draw),
        _ => 16.0 * unit(draw),
    }
}

fn table(draw: &mut Draw, bezel: f32, canvas: Canvas) -> Table {
    let recorded = matches!(canvas, Canvas::Recorded);
    let most = pick(draw, &[1.0, 4.0, 24.0, 300.0, FARTHEST]);
    match draw.below(8) {
        0 => Table::Ramp(0.0, 0.0),
        1 => Table::Ramp(FARTHEST, 0.0),
        2..=3 => Table::Ramp(most, -most / 32.0),
        4 => Table::Ramp(0.0, most / 32.0),
        5 => Table::Ramp(most * unit(draw), 0.0),
        6 if bezel <= 0.5 && !recorded => Table::None,
        _ if recorded => Table::Ramp(8.0 * unit(draw), 0.125 * unit(draw)),
        _ => Table::Random(draw.bits()),
    }
}
