//! Straight copies. Where they write, ours leave a zero top byte; kash-ui's hands the source's byte on where it stores a
//! pixel as it is.
use kash::geom::IRect;
use kash::gfx::Canvas;
use ours::Onto;
use reading::{Area, Kind};

/// The pixel with a zero top byte.
pub fn clear(pixel: u32) -> u32 {
    pixel & 0xFF_FFFF
}

/// The source without top bytes, for kash-ui's straight copies, which stay as they are published. This masks just what
/// they store as it is: what they mix or darken never reads a top byte. The canvas is never masked, for that would hide
/// a frame's FF that is lost.
pub fn cleared(src: &Canvas) -> Canvas {
    let mut without = Canvas::new(src.w, src.h);
    without.px = src.px.iter().copied().map(clear).collect();
    without
}

/// How a straight copy is made, but for its source.
#[derive(Clone, Copy, Debug)]
pub struct Straight {
    pub at: [i32; 2],
    pub radius: f32,
    pub alpha: u32,
    pub dim: u32,
}

/// What a straight copy does with a pixel of its box.
#[derive(Clone, Copy, PartialEq, Eq, Debug)]
pub enum Does {
    /// It writes nothing: the coverage is 0.
    Leaves,
    Writes,
    /// It writes, and a top byte of the source is lost that kash-ui, as published, hands on.
    Clears,
}

impl Straight {
    /// A layer's, with the number of its source.
    pub fn of(kind: &Kind) -> Option<(usize, Straight)> {
        let Kind::Straight {
            source,
            at,
            radius,
            alpha,
            dim,
        } = *kind
        else {
            return None;
        };
        let copy = Straight {
            at,
            radius,
            alpha,
            dim,
        };
        Some((source as usize, copy))
    }

    pub fn is_exact(&self) -> bool {
        self.radius == 0.0 && self.alpha == 255 && self.dim == 0
    }

    /// What it does with each pixel of its box, with the pixel's place on the canvas. kash-ui itself tells: on a canvas
    /// without top bytes those that it hands on are seen, and on one that is full of them it takes away those of the
    /// pixels that it writes.
    pub fn does(&self, onto: Onto, src: &Canvas, without: &Canvas) -> Vec<(usize, Does)> {
        let handed_on = self.over(0, onto, src);
        let kept = self.over(0xFF00_0000, onto, without);
        let does = |i: usize| match [handed_on[i] >> 24, kept[i] >> 24] {
            [0, 0] => Does::Writes,
            [0, _] => Does::Leaves,
            _ => Does::Clears,
        };
        let [x, y] = self.at;
        let under = Area::new(onto.clip).cut(Area::canvas(onto.w as u32, onto.h as u32));
        let area = Area::new([x, y, x + src.w, y + src.h]).cut(under);
        area.places(onto.w as u32).map(|i| (i, does(i))).collect()
    }

    /// A canvas of this word, after kash-ui's copy.
    fn over(&self, word: u32, onto: Onto, src: &Canvas) -> Vec<u32> {
        let mut canvas = Canvas::new(onto.w as i32, onto.h as i32);
        canvas.px.fill(word);
        let [x0, y0, x1, y1] = onto.clip;
        canvas.push_clip_i(IRect::new(x0, y0, x1, y1));
        let [x, y] = self.at;
        canvas.blit_rounded_dim(src, x, y, self.radius, self.alpha, self.dim);
        canvas.px
    }
}
