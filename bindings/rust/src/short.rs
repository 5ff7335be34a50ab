//! Pictures as `{:?}` shows them: a whole one would be millions of numbers in a log.
use crate::{Canvas, Dearest, Playing, Scratch, Source, SourceTable, Sources, Stain};
use std::fmt;

/// How many pixels are shown.
const SHOWN: usize = 8;

/// Pixels in short: the first ones, and how many there are.
struct Short<'a>(&'a [u32]);

impl fmt::Debug for Short<'_> {
    fn fmt(&self, f: &mut fmt::Formatter<'_>) -> fmt::Result {
        let first = self
            .0
            .iter()
            .take(SHOWN)
            .map(|pixel| format!("{pixel:08X}"));
        let first: Vec<_> = first.collect();
        let (shown, all) = (first.join(" "), self.0.len());
        match all {
            0..=SHOWN => write!(f, "[{shown}]"),
            _ => write!(f, "[{shown} .. {all} in all]"),
        }
    }
}

/// The size and the first pixels.
impl fmt::Debug for Canvas {
    fn fmt(&self, f: &mut fmt::Formatter<'_>) -> fmt::Result {
        f.debug_struct("Canvas")
            .field("width", &self.width())
            .field("height", &self.height())
            .field("pixels", &Short(self.pixels()))
            .finish()
    }
}

/// How many layers there are, which was painted last, and the canvas.
impl fmt::Debug for Playing<'_> {
    fn fmt(&self, f: &mut fmt::Formatter<'_>) -> fmt::Result {
        f.debug_struct("Playing")
            .field("count", &self.count())
            .field("last", &self.last())
            .field("canvas", self.canvas())
            .finish()
    }
}

/// The size and the first pixels.
impl fmt::Debug for Source<'_> {
    fn fmt(&self, f: &mut fmt::Formatter<'_>) -> fmt::Result {
        f.debug_struct("Source")
            .field("width", &self.width())
            .field("height", &self.height())
            .field("pixels", &Short(self.pixels()))
            .finish()
    }
}

/// The sources by their numbers, without those that were removed.
impl fmt::Debug for Sources {
    fn fmt(&self, f: &mut fmt::Formatter<'_>) -> fmt::Result {
        f.debug_map().entries(self.iter()).finish()
    }
}

/// The sizes in the order of the numbers.
impl fmt::Debug for SourceTable {
    fn fmt(&self, f: &mut fmt::Formatter<'_>) -> fmt::Result {
        f.debug_list().entries(self.sizes()).finish()
    }
}

/// The size, and how many pixels are stained.
impl fmt::Debug for Stain {
    fn fmt(&self, f: &mut fmt::Formatter<'_>) -> fmt::Result {
        f.debug_struct("Stain")
            .field("width", &self.width())
            .field("height", &self.height())
            .field("count", &self.count())
            .finish()
    }
}

/// The length alone.
impl fmt::Debug for Scratch {
    fn fmt(&self, f: &mut fmt::Formatter<'_>) -> fmt::Result {
        f.debug_struct("Scratch").field("len", &self.len()).finish()
    }
}

/// The need and the panel, of which the block says no more.
impl fmt::Debug for Dearest {
    fn fmt(&self, f: &mut fmt::Formatter<'_>) -> fmt::Result {
        f.debug_struct("Dearest")
            .field("scratch", &self.scratch())
            .field("glass", &self.glass())
            .finish()
    }
}
