//! Points and rectangles.

/// A place on the canvas, in pixels. x goes right, y goes down.
#[derive(Clone, Copy, Debug, Default, PartialEq)]
pub struct Point {
    /// The distance from the left edge.
    pub x: f32,
    /// The distance from the top edge.
    pub y: f32,
}

impl Point {
    /// The place (x, y).
    #[must_use]
    pub const fn new(x: f32, y: f32) -> Point {
        Point { x, y }
    }
}

/// A rectangle between pixels: its edges may lie inside a pixel, which is then covered in part.
#[derive(Clone, Copy, Debug, Default, PartialEq)]
pub struct Rect {
    /// The left edge.
    pub x: f32,
    /// The top edge.
    pub y: f32,
    /// The width.
    pub w: f32,
    /// The height.
    pub h: f32,
}

impl Rect {
    /// The rectangle of this size with its upper left corner at (x, y).
    #[must_use]
    pub const fn new(x: f32, y: f32, w: f32, h: f32) -> Rect {
        Rect { x, y, w, h }
    }
}

/// A rectangle of whole pixels, from (x0, y0) to just before (x1, y1). It is empty where x1 ≤ x0
/// or y1 ≤ y0. Clips are such rectangles.
#[derive(Clone, Copy, Debug, PartialEq, Eq, Hash)]
pub struct IRect {
    /// The first column.
    pub x0: i32,
    /// The first row.
    pub y0: i32,
    /// The column behind the last one.
    pub x1: i32,
    /// The row behind the last one.
    pub y1: i32,
}

impl IRect {
    /// The largest clip that a layer may have; no canvas is larger. It is every layer's clip until
    /// another is set.
    pub const EVERYWHERE: IRect = IRect::new(-16384, -16384, 16384, 16384);

    /// The pixels from (x0, y0) to just before (x1, y1).
    #[must_use]
    pub const fn new(x0: i32, y0: i32, x1: i32, y1: i32) -> IRect {
        IRect { x0, y0, x1, y1 }
    }

    /// Whether no pixel lies in it.
    #[must_use]
    pub const fn is_empty(&self) -> bool {
        self.x1 <= self.x0 || self.y1 <= self.y0
    }

    /// The pixels that lie in both.
    #[must_use]
    pub fn intersect(&self, other: &IRect) -> IRect {
        let (x0, y0) = (self.x0.max(other.x0), self.y0.max(other.y0));
        IRect::new(
            x0,
            y0,
            self.x1.min(other.x1).max(x0),
            self.y1.min(other.y1).max(y0),
        )
    }

    /// How many pixels lie in it.
    #[must_use]
    pub const fn area(&self) -> u64 {
        if self.is_empty() {
            return 0;
        }
        self.x1.abs_diff(self.x0) as u64 * self.y1.abs_diff(self.y0) as u64
    }
}

/// [`IRect::EVERYWHERE`].
impl Default for IRect {
    fn default() -> IRect {
        IRect::EVERYWHERE
    }
}
