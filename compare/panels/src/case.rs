//! One box pass or one layer on one canvas, and how either side paints it.
use crate::classes;
use crate::frame::Frame;
use crate::glass::Glass;
use crate::pass::Pass;
use common::draw::Draw;
use common::edges::Class;
use common::numbers::{Canvas, Pixels};
use kash::gfx;
use ours::Onto;

#[derive(Clone, Copy, Debug)]
pub enum Layer {
    Pass(Pass),
    Frame(Frame),
    Glass(Glass),
}

#[derive(Clone, Copy, Debug)]
pub struct Case {
    /// Only a panel has a clip of its own: the others' is the canvas.
    pub onto: Onto,
    pub before: Pixels,
    pub layer: Layer,
}

impl Case {
    pub fn pass(&self) -> Option<&Pass> {
        match &self.layer {
            Layer::Pass(pass) => Some(pass),
            _ => None,
        }
    }

    pub fn frame(&self) -> Option<&Frame> {
        match &self.layer {
            Layer::Frame(frame) => Some(frame),
            _ => None,
        }
    }

    pub fn glass(&self) -> Option<&Glass> {
        match &self.layer {
            Layer::Glass(glass) => Some(glass),
            _ => None,
        }
    }
}

fn whole([w, h]: [usize; 2]) -> Onto {
    Onto {
        w,
        h,
        clip: [0, 0, w as i32, h as i32],
    }
}

impl common::painters::Case for Case {
    const PAINTERS: &'static [&'static str] =
        &["box_h", "box_v", "composite_secure_frame", "glass"];

    fn draw(draw: &mut Draw, painter: usize, canvas: Canvas) -> Case {
        let (onto, layer) = match painter {
            0 | 1 => {
                let (size, pass) = Pass::draw(draw, painter == 1, canvas);
                (whole(size), Layer::Pass(pass))
            }
            2 => {
                let (size, frame) = Frame::draw(draw, canvas);
                (whole(size), Layer::Frame(frame))
            }
            _ => {
                let (onto, glass) = Glass::draw(draw, canvas);
                (onto, Layer::Glass(glass))
            }
        };
        Case {
            onto,
            before: Pixels::draw(draw),
            layer,
        }
    }

    fn unfit(draw: &mut Draw, painter: usize) -> (Case, usize) {
        let mut case = Case::draw(draw, painter, Canvas::Any);
        let mut length = case.onto.w * case.onto.h;
        if draw.below(2) == 0 {
            let (w, h, count) = common::numbers::unfit(draw, case.onto.w, case.onto.h);
            (case.onto.w, case.onto.h, length) = (w, h, count);
        } else {
            match &mut case.layer {
                Layer::Pass(pass) => pass.spoil(draw),
                Layer::Frame(frame) => frame.spoil(draw, case.onto.w),
                Layer::Glass(glass) => glass.spoil(draw),
            }
        }
        (case, length)
    }

    fn classes() -> Vec<Class<Case>> {
        classes::all()
    }

    fn accepted(&self) -> bool {
        match &self.layer {
            Layer::Pass(pass) => pass.accepted(),
            Layer::Frame(frame) => frame.accepted(self.onto.w),
            Layer::Glass(glass) => glass.accepted(&self.onto),
        }
    }

    fn onto(&self) -> Onto {
        self.onto
    }

    fn canvas_before(&self) -> Pixels {
        self.before
    }

    fn rect(&self) -> [f32; 4] {
        match &self.layer {
            Layer::Pass(_) => [0.0, 0.0, self.onto.w as f32, self.onto.h as f32],
            Layer::Frame(Frame { window: at, .. }) => {
                [at.x, at.y, at.width, at.height].map(|v| v as f32)
            }
            Layer::Glass(glass) => glass.rect,
        }
    }

    fn radius(&self) -> f32 {
        self.glass().map_or(0.0, |glass| glass.style.radius)
    }

    fn paint_ours(&self, px: &mut [u32]) {
        let Onto { w, h, .. } = self.onto;
        match &self.layer {
            Layer::Pass(pass) => pass.ours(px, w, h),
            Layer::Frame(frame) => frame.ours(px, w, h),
            Layer::Glass(glass) => glass.ours(px, self.onto),
        }
    }

    fn paint_rust(&self, canvas: &mut gfx::Canvas) {
        let Onto { w, h, .. } = self.onto;
        match &self.layer {
            Layer::Pass(pass) => pass.rust(&mut canvas.px, w, h),
            Layer::Frame(frame) => frame.rust(&mut canvas.px, w),
            Layer::Glass(glass) => glass.rust(canvas),
        }
    }

    /// | words | a pass | a frame | a panel |
    /// |---|---|---|---|
    /// | 7 | r | x | x |
    /// | 8 to 10 | 0 | y, width, height | y, w, h |
    /// | 11 | 0 | the border | the radius |
    /// | 12 | 0 | the tag | the blur |
    /// | 13 | 0 | bit 0 the tint, bit 1 x-ray | the tint: alpha, red, green, blue from the top |
    /// | 14, 15 | 0 | 0 | saturation, brightness |
    /// | 16, 17 | 0 | 0 | bezel, spec |
    /// | 18, 19 | 0 | 0 | the table: entry i is word 18 + i × word 19, the last is 0 |
    ///
    /// A pass's cells are the canvas's pixels: red, green and blue of each. A frame's canvas has 640
    /// pixels, for fewer show nothing but the title bar.
    fn words(&self) -> [u32; 14] {
        let mut words = [0; 14];
        match &self.layer {
            Layer::Pass(pass) => words[0] = pass.r as u32,
            Layer::Frame(frame) => words[..7].copy_from_slice(&frame.words()),
            Layer::Glass(glass) => words[..13].copy_from_slice(&glass.words()),
        }
        words
    }
}
