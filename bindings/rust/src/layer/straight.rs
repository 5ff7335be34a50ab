//! Kind 5.
use super::{InBlock, Kind};
use crate::block::{Reader, Writer, ALPHA, DIM, RADIUS, SOURCE, X, Y};
use crate::{IRect, SourceId};

/// A source copied pixel for pixel, with round corners, an alpha and a dimming
/// (`blit_rounded_dim`).
///
/// ```
/// use tiglostrema::{play, Canvas, Rundown, Scratch, Source, Sources, StraightCopy};
///
/// let mut sources = Sources::new();
/// let bars = sources.push(Source::new(2, 1, &[0x112233, 0x445566])?)?;
///
/// let mut rundown = Rundown::new();
/// rundown.add(1, StraightCopy::new(bars, 1, 0))?;
///
/// let mut canvas = Canvas::new(4, 1)?;
/// play(&rundown, &mut canvas, &sources, &mut Scratch::new())?;
/// assert_eq!(canvas.pixels(), [0, 0x112233, 0x445566, 0]);
/// # Ok::<(), tiglostrema::Refusal>(())
/// ```
///
/// It paints its whole box, with a [top byte](crate::Canvas#top-bytes) of 0 whatever the source's, at
/// alpha 0 too, where the colours stay. Only in a square at each corner, ceil(radius) + 1 pixels a
/// side, a pixel where its coverage times alpha comes to 0 keeps its whole word: at alpha 0 these are
/// all.
#[derive(Clone, Copy, Debug, PartialEq)]
#[non_exhaustive]
#[must_use = "a layer paints nothing until it is added, and a `with_` method answers a changed copy"]
pub struct StraightCopy {
    /// The source.
    pub source: SourceId,
    /// The column of its left edge, −16384 to 16384.
    pub x: i32,
    /// The row of its top edge, −16384 to 16384.
    pub y: i32,
    /// The corners' radius, 0 to 8192; at most half a side has an effect.
    pub radius: f32,
    /// How opaque it is; 255 is full.
    pub alpha: u8,
    /// How far it is darkened; 255 is black.
    pub dim: u8,
    /// The pixels that it is kept to.
    pub clip: IRect,
}

impl StraightCopy {
    /// The source with its upper left pixel at (x, y): an exact copy.
    pub fn new(source: impl Into<SourceId>, x: i32, y: i32) -> StraightCopy {
        StraightCopy {
            source: source.into(),
            x,
            y,
            radius: 0.0,
            alpha: 255,
            dim: 0,
            clip: IRect::EVERYWHERE,
        }
    }

    /// Sets the corners' radius.
    pub fn with_radius(self, radius: f32) -> StraightCopy {
        StraightCopy { radius, ..self }
    }

    /// Sets how opaque it is.
    pub fn with_alpha(self, alpha: u8) -> StraightCopy {
        StraightCopy { alpha, ..self }
    }

    /// Sets how far it is darkened.
    pub fn with_dim(self, dim: u8) -> StraightCopy {
        StraightCopy { dim, ..self }
    }

    /// Sets the clip.
    pub fn with_clip(self, clip: IRect) -> StraightCopy {
        StraightCopy { clip, ..self }
    }

    /// Whether this is an exact copy: square corners, opaque, not darkened. Nothing of what lies
    /// beneath it is left in its box, so it clears its box of another source's
    /// [`stain`](crate::stain).
    #[must_use]
    pub fn is_exact(&self) -> bool {
        self.radius == 0.0 && self.alpha == 255 && self.dim == 0
    }
}

impl InBlock for StraightCopy {
    const KIND: Kind = Kind::Straight;

    fn write(&self, block: &mut Writer) {
        block.u32(SOURCE, self.source.number());
        block.i32(X, self.x);
        block.i32(Y, self.y);
        block.f32(RADIUS, self.radius);
        block.u32(ALPHA, self.alpha.into());
        block.u32(DIM, self.dim.into());
    }

    fn read(block: Reader<'_>) -> Option<StraightCopy> {
        Some(StraightCopy {
            source: SourceId::new(block.u32(SOURCE)),
            x: block.i32(X),
            y: block.i32(Y),
            radius: block.f32(RADIUS),
            alpha: block.u8(ALPHA),
            dim: block.u8(DIM),
            clip: block.clip(),
        })
    }
}
