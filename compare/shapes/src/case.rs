//! One layer on one canvas, and how either side paints it.
use crate::{cases, classes};
use common::draw::Draw;
use common::edges::Class;
use common::numbers::{unfit, Canvas, Pixels};
use kash::color::Color;
use kash::geom::{Pt, Rect};
use kash::gfx;
use ours::shapes::{self, Paint, Place};
use ours::Onto;

#[derive(Clone, Copy, Debug, PartialEq)]
pub enum Painter {
    Fill,
    Stroke,
    Shadow,
}

#[derive(Clone, Copy, Debug)]
pub struct Case {
    pub painter: Painter,
    pub at: Place,
    /// A stroke and a shadow have its first colour alone.
    pub paint: Paint,
    /// The stroke's width, or the shadow's blur.
    pub size: f32,
    pub skip_inside: u32,
    pub before: Pixels,
}

impl common::painters::Case for Case {
    const PAINTERS: &'static [&'static str] = &["fill_rrect", "stroke_rrect", "shadow_rrect"];

    fn draw(draw: &mut Draw, painter: usize, canvas: Canvas) -> Case {
        let painter = [Painter::Fill, Painter::Stroke, Painter::Shadow][painter];
        cases::case(draw, painter, canvas)
    }

    fn unfit(draw: &mut Draw, painter: usize) -> (Case, usize) {
        let mut case = Case::draw(draw, painter, Canvas::Any);
        let (w, h, length) = unfit(draw, case.at.w, case.at.h);
        (case.at.w, case.at.h) = (w, h);
        (case, length)
    }

    fn classes() -> Vec<Class<Case>> {
        classes::all()
    }

    fn accepted(&self) -> bool {
        cases::accepted(self)
    }

    fn onto(&self) -> Onto {
        let Place { w, h, clip, .. } = self.at;
        Onto { w, h, clip }
    }

    fn canvas_before(&self) -> Pixels {
        self.before
    }

    fn rect(&self) -> [f32; 4] {
        self.at.rect
    }

    fn radius(&self) -> f32 {
        self.at.r
    }

    fn paint_ours(&self, px: &mut [u32]) {
        let color = self.paint.colors[0];
        match self.painter {
            Painter::Fill => shapes::fill(px, self.at, self.paint),
            Painter::Stroke => shapes::stroke(px, self.at, self.size, color),
            Painter::Shadow => shapes::shadow(px, self.at, self.size, color, self.skip_inside),
        }
    }

    fn paint_rust(&self, canvas: &mut gfx::Canvas) {
        let [x, y, w, h] = self.at.rect;
        let (rect, r) = (Rect::new(x, y, w, h), self.at.r);
        let c = color(self.paint.colors[0]);
        match self.painter {
            Painter::Fill => canvas.fill_rrect(rect, r, paint(&self.paint)),
            Painter::Stroke => canvas.stroke_rrect(rect, r, self.size, c),
            Painter::Shadow => canvas.shadow_rrect(rect, r, self.size, c, self.skip_inside != 0),
        }
    }

    /// | words | hold |
    /// |---|---|
    /// | 7 to 10 | the rectangle: x, y, w, h |
    /// | 11 | the corner radius |
    /// | 12 | the paint's kind |
    /// | 13, 14 | its colours; 13 is the stroke's and the shadow's too |
    /// | 15 to 18 | its numbers |
    /// | 19 | the stroke's width, or the shadow's blur |
    /// | 20 | skip_inside |
    fn words(&self) -> [u32; 14] {
        let [x, y, w, h] = self.at.rect.map(f32::to_bits);
        let [c0, c1] = self.paint.colors;
        let [n0, n1, n2, n3] = self.paint.numbers.map(f32::to_bits);
        let (r, size) = (self.at.r.to_bits(), self.size.to_bits());
        let kind = self.paint.kind;
        [
            x,
            y,
            w,
            h,
            r,
            kind,
            c0,
            c1,
            n0,
            n1,
            n2,
            n3,
            size,
            self.skip_inside,
        ]
    }
}

pub fn color(word: u32) -> Color {
    let [a, r, g, b] = word.to_be_bytes();
    Color::rgba(r, g, b, a)
}

pub fn paint(p: &Paint) -> gfx::Paint {
    let [c0, c1] = p.colors.map(color);
    let [n0, n1, n2, n3] = p.numbers;
    match p.kind {
        1 => gfx::Paint::VGrad {
            y0: n0,
            y1: n1,
            c0,
            c1,
        },
        2 => gfx::Paint::Linear {
            p0: Pt::new(n0, n1),
            p1: Pt::new(n2, n3),
            c0,
            c1,
        },
        3 => gfx::Paint::Radial {
            c: Pt::new(n0, n1),
            r: n2,
            c0,
            c1,
        },
        _ => gfx::Paint::Solid(c0),
    }
}
