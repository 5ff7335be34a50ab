//! What a shape is filled with.
use crate::{Color, Point};

/// What a [`Fill`](crate::Fill) is filled with: a colour, or a gradient from `c0` to `c1`. All its
/// places are −16384 to 16384.
///
/// ```
/// use tiglostrema::{play, Canvas, Color, Fill, Paint, Point, Rect, Rundown, Scratch, Sources};
///
/// let (c0, c1) = (Color::BLACK, Color::rgb(0, 0, 200));
/// let along = Paint::Linear { p0: Point::new(0.5, 0.5), p1: Point::new(4.5, 0.5), c0, c1 };
/// let around = Paint::Radial { c: Point::new(2.5, 1.5), r: 2.0, c0, c1 };
///
/// let mut rundown = Rundown::new();
/// rundown.add(1, Fill::new(Rect::new(0.0, 0.0, 5.0, 1.0), along))?;
/// rundown.add(2, Fill::new(Rect::new(0.0, 1.0, 5.0, 1.0), around))?;
///
/// let mut canvas = Canvas::new(5, 2)?;
/// play(&rundown, &mut canvas, &Sources::new(), &mut Scratch::new())?;
/// assert_eq!(canvas.pixels()[..5], [0, 50, 100, 150, 200]);
/// assert_eq!(canvas.pixels()[5..], [200, 100, 0, 100, 200]);
/// # Ok::<(), tiglostrema::Refusal>(())
/// ```
#[derive(Clone, Copy, Debug, PartialEq)]
pub enum Paint {
    /// One colour everywhere.
    Solid(Color),
    /// `c0` down to the height `y0`, `c1` from `y1` on, a vertical gradient between them.
    VGrad {
        /// Where the gradient begins.
        y0: f32,
        /// Where it ends.
        y1: f32,
        /// The colour at its beginning.
        c0: Color,
        /// The colour at its end.
        c1: Color,
    },
    /// A gradient along the line from `p0` to `p1`.
    Linear {
        /// Where the gradient begins.
        p0: Point,
        /// Where it ends.
        p1: Point,
        /// The colour at its beginning.
        c0: Color,
        /// The colour at its end.
        c1: Color,
    },
    /// A gradient from the point `c` out to the distance `r`.
    Radial {
        /// The centre.
        c: Point,
        /// The radius, 0 to 16384.
        r: f32,
        /// The colour in the centre.
        c0: Color,
        /// The colour at the radius and beyond it.
        c1: Color,
    },
}

impl From<Color> for Paint {
    fn from(color: Color) -> Paint {
        Paint::Solid(color)
    }
}
