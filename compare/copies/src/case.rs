//! One copy onto one canvas, and how either side makes it.
use crate::{cases, classes};
use common::draw::Draw;
use common::edges::Class;
use common::numbers::{unfit, Canvas, Pixels};
use common::straight::{cleared, Does, Straight};
use kash::geom::{Pt, Rect};
use kash::gfx;
use ours::copies::{self, Source};
use ours::Onto;

#[derive(Clone, Copy, Debug, PartialEq)]
pub enum Painter {
    Straight,
    Scaled,
    Genie,
}

/// A source's size, how many pixels it really has, and these.
#[derive(Clone, Copy, Debug)]
pub struct From {
    pub w: usize,
    pub h: usize,
    pub len: usize,
    pub px: Pixels,
}

#[derive(Clone, Copy, Debug)]
pub struct Case {
    pub painter: Painter,
    pub onto: Onto,
    pub from: From,
    /// Where the copy lies. A straight one has whole numbers and the source's size.
    pub rect: [f32; 4],
    pub r: f32,
    /// A straight copy's alpha of 255, and how much darker it is.
    pub alpha: u32,
    pub dim: u32,
    /// The other copies' alpha.
    pub part: f32,
    /// Where a genie copy goes, and how far it is on its way.
    pub target: [f32; 2],
    pub t: f32,
    pub before: Pixels,
}

impl Case {
    /// A straight copy's column and row.
    pub fn place(&self) -> [i32; 2] {
        [self.rect[0] as i32, self.rect[1] as i32]
    }

    /// The source as kash-ui has it.
    fn source(&self) -> gfx::Canvas {
        let mut src = gfx::Canvas::new(self.from.w as i32, self.from.h as i32);
        src.px = self.from.px.take(self.from.len);
        src
    }

    /// What a straight copy does with each pixel of its box, with what the pixel was before.
    pub fn does(&self) -> impl Iterator<Item = (u32, Does)> {
        let copy = Straight {
            at: self.place(),
            radius: self.r,
            alpha: self.alpha,
            dim: self.dim,
        };
        let src = self.source();
        let before = self.before.take(self.onto.w * self.onto.h);
        let all = copy.does(self.onto, &src, &cleared(&src));
        all.into_iter().map(move |(i, does)| (before[i], does))
    }
}

impl common::painters::Case for Case {
    const PAINTERS: &'static [&'static str] = &["blit_rounded_dim", "blit_scaled", "blit_genie"];

    fn draw(draw: &mut Draw, painter: usize, canvas: Canvas) -> Case {
        let painter = [Painter::Straight, Painter::Scaled, Painter::Genie][painter];
        cases::case(draw, painter, canvas)
    }

    fn unfit(draw: &mut Draw, painter: usize) -> (Case, usize) {
        let mut case = Case::draw(draw, painter, Canvas::Any);
        let mut length = case.onto.w * case.onto.h;
        if draw.below(2) == 0 {
            (case.onto.w, case.onto.h, length) = unfit(draw, case.onto.w, case.onto.h);
        } else {
            (case.from.w, case.from.h, case.from.len) = unfit(draw, case.from.w, case.from.h);
        }
        (case, length)
    }

    fn classes() -> Vec<Class<Case>> {
        classes::all()
    }

    fn accepted(&self) -> bool {
        cases::accepted(self)
    }

    fn onto(&self) -> Onto {
        self.onto
    }

    fn canvas_before(&self) -> Pixels {
        self.before
    }

    fn rect(&self) -> [f32; 4] {
        self.rect
    }

    fn radius(&self) -> f32 {
        self.r
    }

    fn paint_ours(&self, px: &mut [u32]) {
        let pixels = self.from.px.take(self.from.len);
        let src = Source {
            px: &pixels,
            w: self.from.w,
            h: self.from.h,
        };
        match self.painter {
            Painter::Straight => {
                let at = self.place();
                copies::rounded_dim(px, self.onto, src, at, self.r, self.alpha, self.dim)
            }
            Painter::Scaled => copies::scaled(px, self.onto, src, self.rect, self.r, self.part),
            Painter::Genie => {
                let (rect, to) = (self.rect, self.target);
                copies::genie(px, self.onto, src, rect, to, self.t, self.part)
            }
        }
    }

    fn paint_rust(&self, canvas: &mut gfx::Canvas) {
        let src = self.source();
        let [x, y, w, h] = self.rect;
        let rect = Rect::new(x, y, w, h);
        match self.painter {
            Painter::Straight => {
                let [x, y] = self.place();
                canvas.blit_rounded_dim(&cleared(&src), x, y, self.r, self.alpha, self.dim)
            }
            Painter::Scaled => canvas.blit_scaled(&src, rect, self.r, self.part),
            Painter::Genie => {
                let [x, y] = self.target;
                canvas.blit_genie(&src, rect, Pt::new(x, y), self.t, self.part)
            }
        }
    }

    /// | words | hold |
    /// |---|---|
    /// | 7 to 10 | the rectangle: x, y, w, h; a straight copy has its place in the first two |
    /// | 11 | the corner radius |
    /// | 12, 13 | the source's width and height |
    /// | 14 | a straight copy's alpha as a number, the others' as a float |
    /// | 15 | dim, or the target's x |
    /// | 16 | the target's y |
    /// | 17 | t |
    /// | 18 | how many pixels the source has: at most 64 |
    /// | 19, 20 | these: pixel i is word 19 + i × word 20, wrapped |
    fn words(&self) -> [u32; 14] {
        let [x, y, w, h] = self.rect.map(f32::to_bits);
        let [sw, sh, len] = [self.from.w, self.from.h, self.from.len].map(|n| n as u32);
        let [tx, ty, t] = [self.target[0], self.target[1], self.t].map(f32::to_bits);
        let (alpha, dim) = match self.painter {
            Painter::Straight => (self.alpha, self.dim),
            _ => (self.part.to_bits(), tx),
        };
        let (r, Pixels { first, step }) = (self.r.to_bits(), self.from.px);
        [x, y, w, h, r, sw, sh, alpha, dim, ty, t, len, first, step]
    }
}
