//! A fresh canvas, and the library's calls that paint on it.
use crate::sources::Pictures;
use tiglostrema::{raw, Refusal, MAX_SIDE};

/// A canvas that a rundown is played on, at once or in steps, with the scratch for it. Any bytes are taken; those that
/// are no rundown are refused by the library.
pub struct Stage {
    size: (u32, u32),
    pub pixels: Vec<u32>,
    a: Vec<u8>,
    b: Vec<u8>,
}

impl Stage {
    /// A canvas of one colour. Each scratch slice has the length that is given, else as much as any rundown may need.
    pub fn new(size: (u32, u32), background: u32, scratch: Option<usize>) -> Stage {
        let (width, height) = size;
        // A size that the library refuses needs no pixels, which might be far too many.
        let fits = width.max(height) <= MAX_SIDE;
        let area = if fits {
            width as usize * height as usize
        } else {
            0
        };
        // More than three bytes a pixel no panel needs.
        let scratch = scratch.unwrap_or(usize::MAX).min(3 * area);
        Stage {
            size,
            pixels: vec![background; area],
            a: vec![0; scratch],
            b: vec![0; scratch],
        }
    }

    /// Paints all layers, and answers how many there are.
    pub fn play(&mut self, rundown: &[u8], sources: &Pictures) -> Result<usize, Refusal> {
        let (width, height) = self.size;
        let table = sources.given.table();
        raw::play(
            rundown,
            width,
            height,
            &mut self.pixels,
            &table,
            &sources.pool,
            &mut self.a,
            &mut self.b,
        )
    }

    /// Makes the tests of a play, without painting, and answers how many layers there are.
    pub fn begin(&self, rundown: &[u8], sources: &Pictures) -> Result<usize, Refusal> {
        let (width, height) = self.size;
        let table = sources.given.table();
        raw::begin(
            rundown,
            width,
            height,
            &self.pixels,
            &table,
            &sources.pool,
            &self.a,
            &self.b,
        )
    }

    /// Paints the layer above the last one from the sources as they are now, and answers its priority.
    pub fn step(
        &mut self,
        rundown: &[u8],
        sources: &Pictures,
        last: Option<u16>,
    ) -> Result<u16, Refusal> {
        let (width, height) = self.size;
        let table = sources.given.table();
        raw::step(
            rundown,
            width,
            height,
            &mut self.pixels,
            &table,
            &sources.pool,
            &mut self.a,
            &mut self.b,
            last,
        )
    }
}
