//! Kind 2.
use super::{InBlock, Kind};
use crate::block::{Reader, Writer, COLOR, RADIUS, STROKE_WIDTH};
use crate::{Color, IRect, Rect};

/// The outline of a rectangle with round corners, drawn inside its edge (`stroke_rrect`).
///
/// ```
/// use tiglostrema::{play, Canvas, Color, Rect, Rundown, Scratch, Sources, Stroke};
///
/// let mut rundown = Rundown::new();
/// rundown.add(1, Stroke::new(Rect::new(0.0, 0.0, 8.0, 6.0), 2.0, Color::rgb(255, 0, 0)))?;
///
/// let mut canvas = Canvas::new(8, 6)?;
/// play(&rundown, &mut canvas, &Sources::new(), &mut Scratch::new())?;
/// assert_eq!(canvas.pixel(1, 3), Some(0xFF0000));
/// assert_eq!(canvas.pixel(3, 3), Some(0x000000));
/// # Ok::<(), tiglostrema::Refusal>(())
/// ```
#[derive(Clone, Copy, Debug, PartialEq)]
#[non_exhaustive]
#[must_use = "a layer paints nothing until it is added, and a `with_` method answers a changed copy"]
pub struct Stroke {
    /// The rectangle: x, y −16384 to 16384, width and height 0 to 16384.
    pub rect: Rect,
    /// The corners' radius, 0 to 8192; at most half a side has an effect.
    pub radius: f32,
    /// The line's width, 0 to 256.
    pub width: f32,
    /// The line's colour.
    pub color: Color,
    /// The pixels that it is kept to.
    pub clip: IRect,
}

impl Stroke {
    /// The outline of a rectangle with square corners.
    pub fn new(rect: Rect, width: f32, color: Color) -> Stroke {
        Stroke {
            rect,
            radius: 0.0,
            width,
            color,
            clip: IRect::EVERYWHERE,
        }
    }

    /// Sets the corners' radius.
    pub fn with_radius(self, radius: f32) -> Stroke {
        Stroke { radius, ..self }
    }

    /// Sets the clip.
    pub fn with_clip(self, clip: IRect) -> Stroke {
        Stroke { clip, ..self }
    }
}

impl InBlock for Stroke {
    const KIND: Kind = Kind::Stroke;

    fn write(&self, block: &mut Writer) {
        block.rect(self.rect);
        block.f32(RADIUS, self.radius);
        block.f32(STROKE_WIDTH, self.width);
        block.color(COLOR, self.color);
    }

    fn read(block: Reader<'_>) -> Option<Stroke> {
        Some(Stroke {
            rect: block.rect(),
            radius: block.f32(RADIUS),
            width: block.f32(STROKE_WIDTH),
            color: block.color(COLOR),
            clip: block.clip(),
        })
    }
}
