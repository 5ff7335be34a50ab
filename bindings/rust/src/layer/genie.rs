//! Kind 7.
use super::{InBlock, Kind};
use crate::block::{Reader, Writer, FLOAT_ALPHA, SOURCE, T, TARGET};
use crate::{IRect, Point, Rect, SourceId};

/// A source on its way from a rectangle into a point, as a window that is put away
/// (`blit_genie`).
///
/// ```
/// use tiglostrema::{play, Canvas, Genie, Point, Rect, Rundown, Scratch, Source, Sources};
///
/// let mut sources = Sources::new();
/// let white = sources.push(Source::new(40, 40, &[0xFFFFFF; 1600])?)?;
///
/// // At its end the whole source lies around the target, 24 pixels wide.
/// let mut rundown = Rundown::new();
/// let away = Genie::new(white, Rect::new(0.0, 0.0, 64.0, 32.0), Point::new(32.0, 60.5), 1.0);
/// rundown.add(1, away)?;
///
/// let mut canvas = Canvas::new(64, 64)?;
/// play(&rundown, &mut canvas, &sources, &mut Scratch::new())?;
/// assert_eq!(canvas.pixel(32, 10), Some(0));
/// assert_eq!(canvas.pixel(32, 60), Some(0xFFFFFF));
/// assert_eq!(canvas.pixel(5, 60), Some(0));
/// # Ok::<(), tiglostrema::Refusal>(())
/// ```
#[derive(Clone, Copy, Debug, PartialEq)]
#[non_exhaustive]
#[must_use = "a layer paints nothing until it is added, and a `with_` method answers a changed copy"]
pub struct Genie {
    /// The source.
    pub source: SourceId,
    /// Where it comes from: x, y −16384 to 16384, width and height 0 to 16384.
    pub rect: Rect,
    /// Where it goes to: −16384 to 16384.
    pub target: Point,
    /// How far it has gone, 0 to 1. At 0 it is a scaled copy with corners of radius 24.
    pub t: f32,
    /// How opaque it is, 0 to 1.
    pub alpha: f32,
    /// The pixels that it is kept to.
    pub clip: IRect,
}

impl Genie {
    /// The source on its way from the rectangle to the target, opaque.
    pub fn new(source: impl Into<SourceId>, rect: Rect, target: Point, t: f32) -> Genie {
        Genie {
            source: source.into(),
            rect,
            target,
            t,
            alpha: 1.0,
            clip: IRect::EVERYWHERE,
        }
    }

    /// Sets how opaque it is.
    pub fn with_alpha(self, alpha: f32) -> Genie {
        Genie { alpha, ..self }
    }

    /// Sets the clip.
    pub fn with_clip(self, clip: IRect) -> Genie {
        Genie { clip, ..self }
    }
}

impl InBlock for Genie {
    const KIND: Kind = Kind::Genie;

    fn write(&self, block: &mut Writer) {
        block.u32(SOURCE, self.source.number());
        block.rect(self.rect);
        block.point(TARGET, self.target);
        block.f32(T, self.t);
        block.f32(FLOAT_ALPHA, self.alpha);
    }

    fn read(block: Reader<'_>) -> Option<Genie> {
        Some(Genie {
            source: SourceId::new(block.u32(SOURCE)),
            rect: block.rect(),
            target: block.point(TARGET),
            t: block.f32(T),
            alpha: block.f32(FLOAT_ALPHA),
            clip: block.clip(),
        })
    }
}
