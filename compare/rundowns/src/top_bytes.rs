//! What straight copies and frames do to top bytes, told from what kash-ui does.
use common::layers::kash::Sources;
use common::straight::{Does, Straight};
use kash::gfx::Canvas;
use ours::Onto;
use reading::Layer;

/// The numbers of their kinds.
const STRAIGHT: usize = 5;
const FRAME: usize = 8;

/// What a layer did to the top bytes of some of its pixels.
#[derive(Clone, Copy, Default)]
pub struct TopBytes {
    /// A straight copy cleared one of its source.
    pub cleared: bool,
    /// A straight copy's coverage 0 left one that was there.
    pub left: bool,
    /// A straight copy wrote where a frame had left FF.
    pub frame_cleared: bool,
    /// A straight copy's coverage 0 left a frame's FF.
    pub frame_left: bool,
    /// A frame left FF where a straight copy had written.
    pub frame_over: bool,
}

/// The kind that painted each pixel last, 0 where none did.
pub struct Last(Vec<usize>);

impl Last {
    pub fn none(pixels: usize) -> Last {
        Last(vec![0; pixels])
    }

    /// The next layer, in ascending priority, with the canvas before and after it.
    pub fn step(
        &mut self,
        layer: &Layer,
        sources: &Sources,
        before: &[u32],
        after: &Canvas,
    ) -> TopBytes {
        let Some((source, copy)) = Straight::of(&layer.kind) else {
            return self.painted(layer.number(), before, &after.px);
        };
        let onto = Onto {
            w: after.w as usize,
            h: after.h as usize,
            clip: layer.clip,
        };
        let (whole, clear) = (&sources.whole[source], &sources.clear[source]);
        self.copied(&copy.does(onto, whole, clear), before)
    }

    fn copied(&mut self, pixels: &[(usize, Does)], before: &[u32]) -> TopBytes {
        let mut top = TopBytes::default();
        for (i, does) in pixels {
            let old = before[*i] >> 24;
            let framed = self.0[*i] == FRAME && old == 0xFF;
            if *does == Does::Leaves {
                top.left |= old != 0;
                top.frame_left |= framed;
            } else {
                top.cleared |= *does == Does::Clears;
                top.frame_cleared |= framed;
                self.0[*i] = STRAIGHT;
            }
        }
        top
    }

    /// Of the other kinds just the pixels count that they changed.
    fn painted(&mut self, number: usize, before: &[u32], after: &[u32]) -> TopBytes {
        let mut top = TopBytes::default();
        for i in (0..after.len()).filter(|i| before[*i] != after[*i]) {
            let copied = self.0[i] == STRAIGHT;
            top.frame_over |= number == FRAME && copied && after[i] >> 24 == 0xFF;
            self.0[i] = number;
        }
        top
    }
}
