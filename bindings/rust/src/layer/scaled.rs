//! Kind 6.
use super::{InBlock, Kind};
use crate::block::{Reader, Writer, FLOAT_ALPHA, RADIUS, SOURCE};
use crate::{IRect, Rect, SourceId};

/// A source scaled into a rectangle with round corners (`blit_scaled`).
///
/// ```
/// use tiglostrema::{play, Canvas, Rect, Rundown, ScaledCopy, Scratch, Source, Sources};
///
/// let mut sources = Sources::new();
/// let white = sources.push(Source::new(1, 1, &[0xFFFFFF])?)?;
///
/// let mut rundown = Rundown::new();
/// rundown.add(1, ScaledCopy::new(white, Rect::new(1.0, 0.0, 4.0, 2.0)))?;
///
/// let mut canvas = Canvas::new(6, 2)?;
/// play(&rundown, &mut canvas, &sources, &mut Scratch::new())?;
/// assert_eq!(canvas.pixels()[..6], [0, 0xFFFFFF, 0xFFFFFF, 0xFFFFFF, 0xFFFFFF, 0]);
/// # Ok::<(), tiglostrema::Refusal>(())
/// ```
#[derive(Clone, Copy, Debug, PartialEq)]
#[non_exhaustive]
#[must_use = "a layer paints nothing until it is added, and a `with_` method answers a changed copy"]
pub struct ScaledCopy {
    /// The source.
    pub source: SourceId,
    /// Where it goes: x, y −16384 to 16384, width and height 0 to 16384.
    pub rect: Rect,
    /// The corners' radius, 0 to 8192; at most half a side has an effect.
    pub radius: f32,
    /// How opaque it is, 0 to 1.
    pub alpha: f32,
    /// The pixels that it is kept to.
    pub clip: IRect,
}

impl ScaledCopy {
    /// The whole source in that rectangle, opaque, its corners square.
    pub fn new(source: impl Into<SourceId>, rect: Rect) -> ScaledCopy {
        ScaledCopy {
            source: source.into(),
            rect,
            radius: 0.0,
            alpha: 1.0,
            clip: IRect::EVERYWHERE,
        }
    }

    /// Sets the corners' radius.
    pub fn with_radius(self, radius: f32) -> ScaledCopy {
        ScaledCopy { radius, ..self }
    }

    /// Sets how opaque it is.
    pub fn with_alpha(self, alpha: f32) -> ScaledCopy {
        ScaledCopy { alpha, ..self }
    }

    /// Sets the clip.
    pub fn with_clip(self, clip: IRect) -> ScaledCopy {
        ScaledCopy { clip, ..self }
    }
}

impl InBlock for ScaledCopy {
    const KIND: Kind = Kind::Scaled;

    fn write(&self, block: &mut Writer) {
        block.u32(SOURCE, self.source.number());
        block.rect(self.rect);
        block.f32(RADIUS, self.radius);
        block.f32(FLOAT_ALPHA, self.alpha);
    }

    fn read(block: Reader<'_>) -> Option<ScaledCopy> {
        Some(ScaledCopy {
            source: SourceId::new(block.u32(SOURCE)),
            rect: block.rect(),
            radius: block.f32(RADIUS),
            alpha: block.f32(FLOAT_ALPHA),
            clip: block.clip(),
        })
    }
}
