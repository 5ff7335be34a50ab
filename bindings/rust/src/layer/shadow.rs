//! Kind 3.
use super::{InBlock, Kind};
use crate::block::{Reader, Writer, BLUR, COLOR, FLAGS, RADIUS};
use crate::{Color, IRect, Rect};

const SKIP_INSIDE: u8 = 1;

/// The soft shadow of a rectangle with round corners (`shadow_rrect`).
///
/// ```
/// use tiglostrema::{play, Canvas, Color, Rect, Rundown, Scratch, Shadow, Sources};
///
/// let mut rundown = Rundown::new();
/// let shadow = Shadow::new(Rect::new(4.0, 4.0, 8.0, 8.0), 4.0, Color::BLACK);
/// rundown.add(1, shadow)?;
///
/// let mut canvas = Canvas::new(16, 16)?;
/// canvas.fill(Color::WHITE);
/// play(&rundown, &mut canvas, &Sources::new(), &mut Scratch::new())?;
/// let row: Vec<_> = (0..8).map(|x| canvas.pixel(x, 8).unwrap() & 255).collect();
/// assert_eq!(row, [252, 231, 196, 151, 104, 59, 24, 3]);
/// # Ok::<(), tiglostrema::Refusal>(())
/// ```
#[derive(Clone, Copy, Debug, PartialEq)]
#[non_exhaustive]
#[must_use = "a layer paints nothing until it is added, and a `with_` method answers a changed copy"]
pub struct Shadow {
    /// The rectangle that casts it: x, y −16384 to 16384, width and height 0 to 16384.
    pub rect: Rect,
    /// The radius of the corners, 0 to 8192; at most half a side has an effect.
    pub radius: f32,
    /// How far the shadow reaches out of the rectangle, and into it, 0 to 256.
    pub blur: f32,
    /// The colour.
    pub color: Color,
    /// Whether the fully dark inside is left out, because something opaque is painted over it.
    pub skip_inside: bool,
    /// The pixels that it is kept to.
    pub clip: IRect,
}

impl Shadow {
    /// The shadow of a rectangle with square corners.
    pub fn new(rect: Rect, blur: f32, color: Color) -> Shadow {
        Shadow {
            rect,
            radius: 0.0,
            blur,
            color,
            skip_inside: false,
            clip: IRect::EVERYWHERE,
        }
    }

    /// Sets the corners' radius.
    pub fn with_radius(self, radius: f32) -> Shadow {
        Shadow { radius, ..self }
    }

    /// Sets whether the fully dark inside is left out.
    pub fn with_skip_inside(self, skip_inside: bool) -> Shadow {
        Shadow {
            skip_inside,
            ..self
        }
    }

    /// Sets the clip.
    pub fn with_clip(self, clip: IRect) -> Shadow {
        Shadow { clip, ..self }
    }
}

impl InBlock for Shadow {
    const KIND: Kind = Kind::Shadow;

    fn write(&self, block: &mut Writer) {
        block.u8(FLAGS, if self.skip_inside { SKIP_INSIDE } else { 0 });
        block.rect(self.rect);
        block.f32(RADIUS, self.radius);
        block.f32(BLUR, self.blur);
        block.color(COLOR, self.color);
    }

    fn read(block: Reader<'_>) -> Option<Shadow> {
        Some(Shadow {
            rect: block.rect(),
            radius: block.f32(RADIUS),
            blur: block.f32(BLUR),
            color: block.color(COLOR),
            skip_inside: block.u8(FLAGS) & SKIP_INSIDE != 0,
            clip: block.clip(),
        })
    }
}
