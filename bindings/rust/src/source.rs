//! A picture that layers copy.
use crate::detail::{self, Picture};
use crate::{Canvas, Refusal};

/// A picture that is lent as a source: rows of pixels `0x00RRGGBB` from the top. Their top bytes do
/// not matter: no layer hands them on.
#[derive(Clone, Copy, PartialEq, Eq, Hash)]
pub struct Source<'a> {
    width: u32,
    height: u32,
    pixels: &'a [u32],
}

impl<'a> Source<'a> {
    /// A source of these pixels.
    ///
    /// # Errors
    ///
    /// [`Cause::SourceTable`](crate::Cause::SourceTable) if a side is not 1 to 4096, or there are
    /// not width × height pixels; the words say how many there are.
    pub fn new(width: u32, height: u32, pixels: &'a [u32]) -> Result<Source<'a>, Refusal> {
        detail::pixels(Picture::Source, (width, height), pixels.len())?;
        Ok(Source {
            width,
            height,
            pixels,
        })
    }

    /// The width in pixels.
    #[must_use]
    pub fn width(&self) -> u32 {
        self.width
    }

    /// The height in pixels.
    #[must_use]
    pub fn height(&self) -> u32 {
        self.height
    }

    /// All pixels, row by row.
    #[must_use]
    pub fn pixels(&self) -> &'a [u32] {
        self.pixels
    }
}

/// A finished picture as a source of the next one.
impl<'a> From<&'a Canvas> for Source<'a> {
    fn from(canvas: &'a Canvas) -> Source<'a> {
        Source {
            width: canvas.width(),
            height: canvas.height(),
            pixels: canvas.pixels(),
        }
    }
}
