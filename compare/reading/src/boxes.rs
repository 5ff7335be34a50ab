//! Boxes, glass windows and what scratch they need: 01's "Boxes and the stain".
use crate::layer::{Glass, Kind, Layer, Rect};

/// The pixels from x0, y0 on that lie before x1, y1.
#[derive(Clone, Copy, PartialEq, Eq, Debug)]
pub struct Area {
    pub x0: i32,
    pub y0: i32,
    pub x1: i32,
    pub y1: i32,
}

impl Area {
    pub const NONE: Area = Area {
        x0: 0,
        y0: 0,
        x1: 0,
        y1: 0,
    };

    pub fn new([x0, y0, x1, y1]: [i32; 4]) -> Area {
        Area { x0, y0, x1, y1 }
    }

    pub fn canvas(width: u32, height: u32) -> Area {
        Area::new([0, 0, width as i32, height as i32])
    }

    /// What both hold.
    pub fn cut(self, to: Area) -> Area {
        Area {
            x0: self.x0.max(to.x0),
            y0: self.y0.max(to.y0),
            x1: self.x1.min(to.x1),
            y1: self.y1.min(to.y1),
        }
    }

    pub fn is_empty(self) -> bool {
        self.x1 <= self.x0 || self.y1 <= self.y0
    }

    /// Whether the pixel at this place of a canvas lies in it.
    pub fn holds(self, place: usize, width: u32) -> bool {
        let x = (place % width as usize) as i32;
        let y = (place / width as usize) as i32;
        self.x0 <= x && x < self.x1 && self.y0 <= y && y < self.y1
    }

    /// Held to the ends of i32, which only the numbers of a block that is refused reach.
    fn grown(self, by: i32) -> Area {
        let [x0, y0] = [self.x0, self.y0].map(|n| n.saturating_sub(by));
        let [x1, y1] = [self.x1, self.y1].map(|n| n.saturating_add(by));
        Area { x0, y0, x1, y1 }
    }

    /// The places of its pixels on a canvas that holds it.
    pub fn places(self, width: u32) -> impl Iterator<Item = usize> {
        let Area { x0, y0, x1, y1 } = self;
        (y0..y1).flat_map(move |y| (x0..x1).map(move |x| y as usize * width as usize + x as usize))
    }
}

/// The pixels that a rectangle touches.
fn outer([x, y, w, h]: Rect) -> Area {
    let low = |v: f32| v.floor() as i32;
    let high = |v: f32| v.ceil() as i32;
    Area::new([low(x), low(y), high(x + w), high(y + h)])
}

/// `Rect::inset` of -blur.
fn grown([x, y, w, h]: Rect, blur: f32) -> Rect {
    let d = -blur;
    let side = |v: f32| (v - 2.0 * d).max(0.0);
    [x + d, y + d, side(w), side(h)]
}

/// The k of a blur.
pub fn scale_of(blur: f32) -> usize {
    match blur {
        b if b < 2.5 => 1,
        b if b < 9.0 => 2,
        _ => 4,
    }
}

impl Layer {
    /// The layer's box on this canvas; `size` is that of the source that it shows.
    pub fn area(&self, canvas: Area, size: [u32; 2]) -> Area {
        let clip = Area::new(self.clip).cut(canvas);
        match &self.kind {
            Kind::Fill { rect, .. } | Kind::Stroke { rect, .. } | Kind::Scaled { rect, .. } => {
                outer(*rect).cut(clip)
            }
            Kind::Glass(glass) if glass.rect[2] < 2.0 || glass.rect[3] < 2.0 => Area::NONE,
            Kind::Glass(glass) => outer(glass.rect).cut(clip),
            Kind::Shadow { rect, blur, .. } => outer(grown(*rect, *blur)).cut(clip),
            Kind::Straight { at: [x, y], .. } => {
                let [w, h] = size.map(|n| n as i32);
                Area::new([*x, *y, x + w, y + h]).cut(clip)
            }
            Kind::Genie { .. } => clip,
            Kind::Frame {
                at: [x, y],
                size: [w, h],
                ..
            } => Area::new([*x, *y, x + w, y + h].map(|n| n as i32)).cut(canvas),
        }
    }
}

impl Glass {
    /// What of the canvas the panel may show.
    pub fn window(&self, canvas: Area) -> Area {
        let largest = if self.bezel > 0.5 {
            self.table.iter().fold(0.0, |most: f32, v| most.max(*v))
        } else {
            0.0
        };
        let by = (2.0 * self.blur + largest + 3.0).ceil() as i32;
        outer(self.rect).grown(by).cut(canvas)
    }

    /// k: a cell of the small picture stands for k by k pixels.
    pub fn scale(&self) -> usize {
        scale_of(self.blur)
    }

    /// The bytes that each scratch slice needs where the box is not empty.
    pub fn need(&self, canvas: Area) -> usize {
        let k = self.scale();
        let window = self.window(canvas);
        let cells = |n: i32| (n.max(0) as usize).div_ceil(k);
        3 * cells(window.x1 - window.x0) * cells(window.y1 - window.y0)
    }
}
