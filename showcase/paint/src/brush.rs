//! A board to paint on. Shapes are distances from their edge, negative inside.
//! Only operations that are exact to the last bit everywhere are used, so that the pictures are the same
//! on every machine.
use picture::Picture;

pub type Rgb = [f32; 3];

/// A colour of a hexadecimal number.
pub fn rgb(hex: u32) -> Rgb {
    [16, 8, 0].map(|shift| ((hex >> shift) & 255) as f32)
}

/// The colour between two, from 0 to 1.
pub fn mix(a: Rgb, b: Rgb, t: f32) -> Rgb {
    let t = t.clamp(0.0, 1.0);
    [0, 1, 2].map(|i| a[i] + (b[i] - a[i]) * t)
}

#[derive(Clone, Copy)]
pub struct P {
    pub x: f32,
    pub y: f32,
}

pub fn p(x: f32, y: f32) -> P {
    P { x, y }
}

impl P {
    pub fn to(self, other: P) -> P {
        p(other.x - self.x, other.y - self.y)
    }

    pub fn length(self) -> f32 {
        (self.x * self.x + self.y * self.y).sqrt()
    }

    /// The place a part of the way to another.
    pub fn toward(self, other: P, t: f32) -> P {
        p(
            self.x + (other.x - self.x) * t,
            self.y + (other.y - self.y) * t,
        )
    }
}

pub struct Board {
    pub w: u32,
    pub h: u32,
    pixels: Vec<Rgb>,
}

impl Board {
    pub fn new(w: u32, h: u32, colour: impl Fn(P) -> Rgb) -> Board {
        let place = |i: u32| p((i % w) as f32 + 0.5, (i / w) as f32 + 0.5);
        let pixels = (0..w * h).map(|i| colour(place(i))).collect();
        Board { w, h, pixels }
    }

    /// Paints a shape in one colour.
    pub fn fill(&mut self, shape: impl Fn(P) -> f32, colour: Rgb) {
        self.paint(shape, |_| colour, 1.0, 1.0);
    }

    /// Paints a shape in one colour at an opacity from 0 to 1.
    pub fn glaze(&mut self, shape: impl Fn(P) -> f32, colour: Rgb, opacity: f32) {
        self.paint(shape, |_| colour, 1.0, opacity);
    }

    /// Paints a shape whose edge goes over `soft` pixels.
    pub fn paint(
        &mut self,
        shape: impl Fn(P) -> f32,
        colour: impl Fn(P) -> Rgb,
        soft: f32,
        opacity: f32,
    ) {
        for (i, pixel) in self.pixels.iter_mut().enumerate() {
            let i = i as u32;
            let at = p((i % self.w) as f32 + 0.5, (i / self.w) as f32 + 0.5);
            let t = (0.5 - shape(at) / soft).clamp(0.0, 1.0);
            // A hard edge is covered by its part; a soft one rounds off at both ends.
            let cover = if soft > 1.0 {
                t * t * (3.0 - 2.0 * t)
            } else {
                t
            };
            if cover > 0.0 {
                *pixel = mix(*pixel, colour(at), cover * opacity);
            }
        }
    }

    /// The picture. Channels are rounded to steps of 3, which nobody sees and which keeps the files small.
    pub fn picture(&self) -> Picture {
        let byte = |v: f32| (v / 3.0 + 0.5) as u32 * 3;
        let word = |c: &Rgb| c.iter().fold(0, |w, v| (w << 8) | byte(*v));
        let pixels = self.pixels.iter().map(word).collect();
        Picture::new(self.w, self.h, pixels).expect("a board has width × height pixels")
    }
}

/// A rectangle with round corners.
pub fn rrect(x: f32, y: f32, w: f32, h: f32, r: f32) -> impl Fn(P) -> f32 + Copy {
    let centre = p(x + w / 2.0, y + h / 2.0);
    move |q| {
        let d = centre.to(q);
        let over = p(d.x.abs() - (w / 2.0 - r), d.y.abs() - (h / 2.0 - r));
        let outside = p(over.x.max(0.0), over.y.max(0.0)).length();
        outside + over.x.max(over.y).min(0.0) - r
    }
}

pub fn circle(x: f32, y: f32, r: f32) -> impl Fn(P) -> f32 + Copy {
    move |q| p(x, y).to(q).length() - r
}

/// An ellipse; the distance is near the true one, which is enough for an edge.
pub fn ellipse(x: f32, y: f32, rx: f32, ry: f32) -> impl Fn(P) -> f32 + Copy {
    move |q| {
        let d = p((q.x - x) / rx, (q.y - y) / ry);
        let scaled = p(d.x / rx, d.y / ry).length();
        if scaled == 0.0 {
            return -rx.min(ry);
        }
        d.length() * (d.length() - 1.0) / scaled
    }
}

/// A limb from `a` to `b`, as thick as two radii, with round ends.
pub fn limb(a: P, b: P, ra: f32, rb: f32) -> impl Fn(P) -> f32 + Copy {
    move |q| {
        let (along, from) = (a.to(b), a.to(q));
        let length2 = (along.x * along.x + along.y * along.y).max(0.0001);
        let t = ((from.x * along.x + from.y * along.y) / length2).clamp(0.0, 1.0);
        a.toward(b, t).to(q).length() - (ra + (rb - ra) * t)
    }
}

/// The side of the line through `a` and `b` that lies on the right hand of one who goes from a to b.
pub fn side(a: P, b: P) -> impl Fn(P) -> f32 + Copy {
    let along = a.to(b);
    let length = along.length();
    move |q| {
        let from = a.to(q);
        (from.x * along.y - from.y * along.x) / length
    }
}

/// What lies in both shapes.
pub fn both(a: impl Fn(P) -> f32 + Copy, b: impl Fn(P) -> f32 + Copy) -> impl Fn(P) -> f32 + Copy {
    move |q| a(q).max(b(q))
}

/// What lies in either, joined with a fillet of that size.
pub fn join(
    a: impl Fn(P) -> f32 + Copy,
    b: impl Fn(P) -> f32 + Copy,
    fillet: f32,
) -> impl Fn(P) -> f32 + Copy {
    move |q| {
        let (da, db) = (a(q), b(q));
        let near = (fillet - (da - db).abs()).max(0.0) / fillet;
        da.min(db) - near * near * fillet / 4.0
    }
}
