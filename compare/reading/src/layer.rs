//! A block that has passed its tests, as a layer with its numbers.
use crate::block::{
    float, four, priority_of, signed, word, Body, ALPHA, BEZEL, BLUR, BORDER, BRIGHTNESS, CLIP,
    COLOR, DIM, FLAGS, FLOAT_ALPHA, HEIGHT, KIND, NUMBERS, PAINT, RADIUS, RECT, SATURATION,
    SECOND_COLOR, SOURCE, SPEC, STROKE_WIDTH, T, TABLE, TAG, TARGET, WIDTH, X, Y,
};

/// Red, green, blue, alpha.
pub type Rgba = [u8; 4];

/// x, y, width, height.
pub type Rect = [f32; 4];

#[derive(Clone, Debug)]
pub struct Layer {
    pub priority: u16,
    /// x0, y0, x1, y1, as they stand in the block.
    pub clip: [i32; 4],
    pub kind: Kind,
}

#[derive(Clone, Debug)]
pub enum Kind {
    Fill {
        rect: Rect,
        radius: f32,
        paint: Paint,
    },
    Stroke {
        rect: Rect,
        radius: f32,
        width: f32,
        color: Rgba,
    },
    Shadow {
        rect: Rect,
        radius: f32,
        blur: f32,
        color: Rgba,
        skip_inside: bool,
    },
    Glass(Box<Glass>),
    Straight {
        source: u32,
        at: [i32; 2],
        radius: f32,
        alpha: u32,
        dim: u32,
    },
    Scaled {
        source: u32,
        rect: Rect,
        radius: f32,
        alpha: f32,
    },
    Genie {
        source: u32,
        rect: Rect,
        target: [f32; 2],
        t: f32,
        alpha: f32,
    },
    Frame {
        at: [u32; 2],
        size: [u32; 2],
        border: u32,
        tag: u8,
        tint: bool,
        xray: bool,
    },
}

#[derive(Clone, Debug)]
pub struct Glass {
    pub rect: Rect,
    pub radius: f32,
    pub blur: f32,
    pub tint: Rgba,
    pub saturation: f32,
    pub brightness: f32,
    pub bezel: f32,
    pub spec: f32,
    pub table: [f32; 33],
}

#[derive(Clone, Copy, Debug)]
pub enum Paint {
    Solid(Rgba),
    /// y0, y1.
    VGrad([f32; 2], [Rgba; 2]),
    /// Two points.
    Linear([f32; 4], [Rgba; 2]),
    /// Centre and radius.
    Radial([f32; 3], [Rgba; 2]),
}

impl Layer {
    /// The layer of a block whose tests 4 to 7 and 15 are passed.
    pub fn of(body: &Body) -> Layer {
        Layer {
            priority: priority_of(body),
            clip: std::array::from_fn(|i| signed(body, CLIP + 4 * i)),
            kind: kind_of(body),
        }
    }

    /// The number of the source that it shows.
    pub fn source(&self) -> Option<u32> {
        match self.kind {
            Kind::Straight { source, .. }
            | Kind::Scaled { source, .. }
            | Kind::Genie { source, .. } => Some(source),
            _ => None,
        }
    }

    /// The kind's number, 1 to 8.
    pub fn number(&self) -> usize {
        match self.kind {
            Kind::Fill { .. } => 1,
            Kind::Stroke { .. } => 2,
            Kind::Shadow { .. } => 3,
            Kind::Glass(_) => 4,
            Kind::Straight { .. } => 5,
            Kind::Scaled { .. } => 6,
            Kind::Genie { .. } => 7,
            Kind::Frame { .. } => 8,
        }
    }
}

fn kind_of(body: &Body) -> Kind {
    let real = |at| float(body, at);
    let whole = |at| word(body, at);
    let rect = floats(body, RECT);
    let radius = real(RADIUS);
    let color = four(body, COLOR);
    let source = whole(SOURCE);
    let alpha = real(FLOAT_ALPHA);
    let has = |bit: u8| body[FLAGS] & bit != 0;
    match body[KIND] {
        1 => Kind::Fill {
            rect,
            radius,
            paint: paint_of(body),
        },
        2 => Kind::Stroke {
            rect,
            radius,
            width: real(STROKE_WIDTH),
            color,
        },
        3 => Kind::Shadow {
            rect,
            radius,
            blur: real(BLUR),
            color,
            skip_inside: has(1),
        },
        4 => Kind::Glass(Box::new(Glass {
            rect,
            radius,
            blur: real(BLUR),
            tint: color,
            saturation: real(SATURATION),
            brightness: real(BRIGHTNESS),
            bezel: real(BEZEL),
            spec: real(SPEC),
            table: floats(body, TABLE),
        })),
        5 => Kind::Straight {
            source,
            at: [signed(body, X), signed(body, Y)],
            radius,
            alpha: whole(ALPHA),
            dim: whole(DIM),
        },
        6 => Kind::Scaled {
            source,
            rect,
            radius,
            alpha,
        },
        7 => Kind::Genie {
            source,
            rect,
            target: floats(body, TARGET),
            t: real(T),
            alpha,
        },
        8 => Kind::Frame {
            at: [whole(X), whole(Y)],
            size: [whole(WIDTH), whole(HEIGHT)],
            border: whole(BORDER),
            tag: body[TAG],
            tint: has(1),
            xray: has(2),
        },
        other => panic!("a block of kind {other} has passed"),
    }
}

fn paint_of(body: &Body) -> Paint {
    let colors = [four(body, COLOR), four(body, SECOND_COLOR)];
    match body[PAINT] {
        0 => Paint::Solid(colors[0]),
        1 => Paint::VGrad(floats(body, NUMBERS), colors),
        2 => Paint::Linear(floats(body, NUMBERS), colors),
        _ => Paint::Radial(floats(body, NUMBERS), colors),
    }
}

fn floats<const N: usize>(body: &Body, at: usize) -> [f32; N] {
    std::array::from_fn(|i| float(body, at + 4 * i))
}
