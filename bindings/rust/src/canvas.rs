//! The picture that layers are painted on.
use crate::detail::{self, area, Picture};
use crate::{Color, Refusal};

/// The longest side of a canvas or a source.
pub const MAX_SIDE: u32 = 4096;

/// A picture: rows of pixels from the top, each pixel a word `0x00RRGGBB`. Its sides are 1 to 4096
/// pixels long.
///
/// # Top bytes
///
/// The top byte of a pixel is no part of the picture: no colour depends on it. A
/// [`Frame`](crate::Frame) leaves FF in each of its pixels, any other layer 0 in each pixel that it
/// paints, copies of every kind too; a pixel that a layer does not paint keeps its whole word. So a
/// source's top bytes are never handed on and never matter, the canvas's own stay where nothing is
/// painted, and a copy over a frame clears its FF.
///
/// ```
/// use tiglostrema::{play, Canvas, Rundown, Scratch, Source, Sources, StraightCopy};
///
/// let mut sources = Sources::new();
/// let camera = sources.push(Source::new(3, 1, &[0xAA112233; 3])?)?;
/// let mut rundown = Rundown::new();
/// rundown.add(1, StraightCopy::new(camera, 1, 0))?;
///
/// let mut canvas = Canvas::from_pixels(5, 1, vec![0xFF445566; 5])?;
/// play(&rundown, &mut canvas, &sources, &mut Scratch::new())?;
/// assert_eq!(canvas.pixels(), [0xFF445566, 0x112233, 0x112233, 0x112233, 0xFF445566]);
/// # Ok::<(), tiglostrema::Refusal>(())
/// ```
///
/// A pixel whose colour changes is painted. One in which nothing of a layer shows, as at alpha 0 or
/// just at its edge, is not painted by a fill, stroke or shadow; a copy or glass may paint it, which
/// clears the top byte and leaves the colour.
#[derive(Clone, PartialEq, Eq, Hash)]
pub struct Canvas {
    width: u32,
    height: u32,
    pixels: Vec<u32>,
}

impl Canvas {
    /// A black canvas.
    ///
    /// # Errors
    ///
    /// [`Cause::CanvasSize`](crate::Cause::CanvasSize) if a side is not 1 to 4096.
    pub fn new(width: u32, height: u32) -> Result<Canvas, Refusal> {
        detail::sides(Picture::Canvas, (width, height))?;
        Canvas::from_pixels(width, height, vec![0; area((width, height))])
    }

    /// A canvas of these pixels.
    ///
    /// # Errors
    ///
    /// [`Cause::CanvasSize`](crate::Cause::CanvasSize) if a side is not 1 to 4096, or there are not
    /// width × height pixels; the words say how many there are.
    pub fn from_pixels(width: u32, height: u32, pixels: Vec<u32>) -> Result<Canvas, Refusal> {
        detail::pixels(Picture::Canvas, (width, height), pixels.len())?;
        Ok(Canvas {
            width,
            height,
            pixels,
        })
    }

    /// The width in pixels.
    #[must_use]
    pub fn width(&self) -> u32 {
        self.width
    }

    /// The height in pixels.
    #[must_use]
    pub fn height(&self) -> u32 {
        self.height
    }

    /// All pixels, row by row.
    #[must_use]
    pub fn pixels(&self) -> &[u32] {
        &self.pixels
    }

    /// All pixels, to be changed.
    pub fn pixels_mut(&mut self) -> &mut [u32] {
        &mut self.pixels
    }

    /// The pixels, out of the canvas.
    #[must_use]
    pub fn into_pixels(self) -> Vec<u32> {
        self.pixels
    }

    /// The pixel in column x of row y, if it is on the canvas.
    #[must_use]
    pub fn pixel(&self, x: u32, y: u32) -> Option<u32> {
        let row = self
            .pixels
            .chunks_exact(self.width as usize)
            .nth(y as usize)?;
        row.get(x as usize).copied()
    }

    /// Paints every pixel in this colour. Its alpha is not looked at.
    pub fn fill(&mut self, color: Color) {
        self.pixels.fill(color.to_pixel());
    }
}
