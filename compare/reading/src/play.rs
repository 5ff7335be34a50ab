//! Play: its tests in their order.
use crate::block::judge;
use crate::boxes::Area;
use crate::layer::{Kind, Layer};
use crate::rundown::{blocks_of, body_of, repeated};
use crate::{Answer, Cause, BLOCK, MOST};

/// The longest side of a canvas or of a source.
pub(crate) const LONGEST: u32 = 4096;
const MOST_SOURCES: usize = 16;

/// What the answer depends on: no pixel of the canvas, of a source or of scratch.
#[derive(Clone, Copy, Debug)]
pub struct Show<'a> {
    pub rundown: &'a [u8],
    pub width: u32,
    pub height: u32,
    /// How many pixels the canvas has.
    pub canvas: usize,
    /// Widths and heights by turns.
    pub table: &'a [u32],
    /// How many pixels the pool has.
    pub pool: usize,
    /// The bytes of the two scratch slices.
    pub scratch: [usize; 2],
}

impl<'a> Show<'a> {
    /// What play answers: the count of layers, or the cause with what stands beside it.
    pub fn answer(&self) -> Answer {
        self.layers_fit(self.canvas_fits(), self.pool_fits())?;
        let least = self.scratch[0].min(self.scratch[1]);
        for (i, layer) in self.layers().enumerate() {
            if self.need(&layer) > least {
                return Err((Cause::Scratch, i));
            }
        }
        Ok(self.rundown.len() / BLOCK)
    }

    /// What the stain answers, whose map has as many bytes as the canvas has pixels: the same without a
    /// pool and without scratch.
    pub fn stain_answer(&self) -> Answer {
        self.layers_fit(self.canvas_fits(), true)
    }

    /// All tests before 11, given whether canvas and pool are as long as they should be.
    pub(crate) fn layers_fit(&self, canvas_fits: bool, pool_fits: bool) -> Answer {
        if !(is_side(self.width) && is_side(self.height) && canvas_fits) {
            return Err((Cause::Canvas, 0));
        }
        if !(self.table_fits() && pool_fits) {
            return Err((Cause::Sources, 0));
        }
        if !self.rundown.len().is_multiple_of(BLOCK) || self.rundown.len() / BLOCK > MOST {
            return Err((Cause::Rundown, 0));
        }
        for (i, block) in blocks_of(self.rundown).enumerate() {
            judge(block).map_err(|cause| (cause, i))?;
            let layer = Layer::of(body_of(block));
            if layer.source().is_some_and(|s| !self.has_source(s)) {
                return Err((Cause::Source, i));
            }
            if self.is_beyond(&layer) {
                return Err((Cause::Frame, i));
            }
        }
        if let Some(i) = repeated(self.rundown) {
            return Err((Cause::Priority, i));
        }
        Ok(self.rundown.len() / BLOCK)
    }

    fn canvas_fits(&self) -> bool {
        self.canvas == self.width as usize * self.height as usize
    }

    fn table_fits(&self) -> bool {
        self.table.len().is_multiple_of(2)
            && self.table.len() / 2 <= MOST_SOURCES
            && self.table.iter().all(|n| is_side(*n))
    }

    fn pool_fits(&self) -> bool {
        let pixels = |[w, h]: [u32; 2]| w as u128 * h as u128;
        self.pool as u128 == self.sizes().map(pixels).sum::<u128>()
    }

    fn sizes(&self) -> impl Iterator<Item = [u32; 2]> + use<'a> {
        self.table.as_chunks().0.iter().copied()
    }

    fn has_source(&self, s: u32) -> bool {
        (s as usize) < self.table.len() / 2
    }

    /// A frame that ends beyond the canvas's width.
    fn is_beyond(&self, layer: &Layer) -> bool {
        match layer.kind {
            Kind::Frame {
                at: [x, _],
                size: [width, _],
                ..
            } => x + width > self.width,
            _ => false,
        }
    }

    pub fn whole(&self) -> Area {
        Area::canvas(self.width, self.height)
    }

    /// The layers of a rundown that has passed, in the buffer's order.
    pub fn layers(&self) -> impl Iterator<Item = Layer> + use<'a> {
        blocks_of(self.rundown).map(|block| Layer::of(body_of(block)))
    }

    /// The same in ascending priority.
    pub fn in_order(&self) -> Vec<Layer> {
        let mut layers: Vec<Layer> = self.layers().collect();
        layers.sort_by_key(|layer| layer.priority);
        layers
    }

    /// The layer's box.
    pub fn area(&self, layer: &Layer) -> Area {
        let size = layer.source().and_then(|s| self.sizes().nth(s as usize));
        layer.area(self.whole(), size.unwrap_or([0, 0]))
    }

    /// The bytes that the layer needs of each scratch slice.
    pub fn need(&self, layer: &Layer) -> usize {
        match &layer.kind {
            Kind::Glass(glass) if !self.area(layer).is_empty() => glass.need(self.whole()),
            _ => 0,
        }
    }

    /// Where source s's words stand in the pool, as far as this has any: found by the table's sizes as
    /// whole numbers, be they refused or not.
    pub fn words_of(&self, s: usize) -> std::ops::Range<usize> {
        let pixels = |[w, h]: [u32; 2]| w as u128 * h as u128;
        let from: u128 = self.sizes().take(s).map(pixels).sum();
        let count = self.sizes().nth(s).map_or(0, pixels);
        let cut = |n: u128| n.min(self.pool as u128) as usize;
        cut(from)..cut(from + count)
    }
}

pub(crate) fn is_side(n: u32) -> bool {
    (1..=LONGEST).contains(&n)
}
