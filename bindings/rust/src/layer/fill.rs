//! Kind 1.
use super::{InBlock, Kind};
use crate::block::{Reader, Writer, COLOR, COLOR2, NUMBERS, PAINT, RADIUS};
use crate::{IRect, Paint, Rect};

/// A filled rectangle with round corners (`fill_rrect`).
///
/// ```
/// use tiglostrema::{play, Canvas, Color, Fill, Paint, Rect, Rundown, Scratch, Sources};
///
/// let mut rundown = Rundown::new();
/// // The left half white, the right half a gradient from black to red.
/// rundown.add(1, Fill::new(Rect::new(0.0, 0.0, 4.0, 4.0), Color::WHITE))?;
/// let fade = Paint::VGrad { y0: 0.5, y1: 2.5, c0: Color::BLACK, c1: Color::rgb(200, 0, 0) };
/// rundown.add(2, Fill::new(Rect::new(4.0, 0.0, 4.0, 4.0), fade))?;
///
/// let mut canvas = Canvas::new(8, 4)?;
/// play(&rundown, &mut canvas, &Sources::new(), &mut Scratch::new())?;
/// assert_eq!(canvas.pixel(3, 2), Some(0xFFFFFF));
/// assert_eq!(canvas.pixel(5, 0), Some(0x000000));
/// assert_eq!(canvas.pixel(5, 1), Some(0x640000));
/// assert_eq!(canvas.pixel(5, 3), Some(0xC80000));
/// # Ok::<(), tiglostrema::Refusal>(())
/// ```
#[derive(Clone, Copy, Debug, PartialEq)]
#[non_exhaustive]
#[must_use = "a layer paints nothing until it is added, and a `with_` method answers a changed copy"]
pub struct Fill {
    /// The rectangle: x, y −16384 to 16384, width and height 0 to 16384.
    pub rect: Rect,
    /// The corners' radius, 0 to 8192; at most half a side has an effect.
    pub radius: f32,
    /// What it is filled with.
    pub paint: Paint,
    /// The pixels that it is kept to.
    pub clip: IRect,
}

impl Fill {
    /// A rectangle filled with a colour or a gradient, its corners square.
    pub fn new(rect: Rect, paint: impl Into<Paint>) -> Fill {
        Fill {
            rect,
            radius: 0.0,
            paint: paint.into(),
            clip: IRect::EVERYWHERE,
        }
    }

    /// Sets the corners' radius.
    pub fn with_radius(self, radius: f32) -> Fill {
        Fill { radius, ..self }
    }

    /// Sets the clip.
    pub fn with_clip(self, clip: IRect) -> Fill {
        Fill { clip, ..self }
    }
}

impl InBlock for Fill {
    const KIND: Kind = Kind::Fill;

    fn write(&self, block: &mut Writer) {
        block.rect(self.rect);
        block.f32(RADIUS, self.radius);
        match self.paint {
            Paint::Solid(color) => block.color(COLOR, color),
            Paint::VGrad { y0, y1, c0, c1 } => {
                block.u8(PAINT, 1);
                block.color(COLOR, c0);
                block.color(COLOR2, c1);
                block.f32s(NUMBERS, &[y0, y1]);
            }
            Paint::Linear { p0, p1, c0, c1 } => {
                block.u8(PAINT, 2);
                block.color(COLOR, c0);
                block.color(COLOR2, c1);
                block.f32s(NUMBERS, &[p0.x, p0.y, p1.x, p1.y]);
            }
            Paint::Radial { c, r, c0, c1 } => {
                block.u8(PAINT, 3);
                block.color(COLOR, c0);
                block.color(COLOR2, c1);
                block.f32s(NUMBERS, &[c.x, c.y, r]);
            }
        }
    }

    fn read(block: Reader<'_>) -> Option<Fill> {
        let (c0, c1) = (block.color(COLOR), block.color(COLOR2));
        let paint = match block.u8(PAINT) {
            0 => Paint::Solid(c0),
            1 => {
                let [y0, y1] = block.f32s(NUMBERS);
                Paint::VGrad { y0, y1, c0, c1 }
            }
            2 => {
                let (p0, p1) = (block.point(NUMBERS), block.point(NUMBERS + 8));
                Paint::Linear { p0, p1, c0, c1 }
            }
            3 => {
                let (c, r) = (block.point(NUMBERS), block.f32(NUMBERS + 8));
                Paint::Radial { c, r, c0, c1 }
            }
            _ => return None,
        };
        Some(Fill {
            rect: block.rect(),
            radius: block.f32(RADIUS),
            paint,
            clip: block.clip(),
        })
    }
}
