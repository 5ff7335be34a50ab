//! A layer as a block.
use super::draw::{checked, put_float, put_word};
use super::fields::{BEZEL, FLAGS, KIND, PAINT, PRIORITY, TABLE, TAG};
use reading::{Body, Glass, Kind, Layer, Paint, Rgba, BLOCK, BODY};

const SOURCE: usize = 4;
const X: usize = 8;
const WIDTH: usize = 16;
const BORDER: usize = 24;
pub const RECT: usize = 32;
const RADIUS: usize = 48;
pub const BLUR: usize = 52;
const COLOR: usize = 56;
const SATURATION: usize = 60;
const BRIGHTNESS: usize = 64;
const SPEC: usize = 72;
const ALPHA: usize = 76;
const DIM: usize = 80;
const FLOAT_ALPHA: usize = 84;
const T: usize = 88;
const TARGET: usize = 92;
const STROKE_WIDTH: usize = 100;
pub const CLIP: usize = 236;
const SECOND_COLOR: usize = 252;
const NUMBERS: usize = 256;

pub fn block(layer: &Layer) -> [u8; BLOCK] {
    checked(&body(layer))
}

/// The block without its check.
pub fn body(layer: &Layer) -> Body {
    let mut body = [0; BODY];
    let to = &mut body;
    to[KIND] = layer.number() as u8;
    to[PRIORITY..PRIORITY + 2].copy_from_slice(&layer.priority.to_le_bytes());
    words(to, CLIP, &layer.clip.map(|v| v as u32));
    match &layer.kind {
        Kind::Fill {
            rect,
            radius,
            paint,
        } => {
            shape(to, rect, *radius);
            put_paint(to, paint);
        }
        Kind::Stroke {
            rect,
            radius,
            width,
            color,
        } => {
            shape(to, rect, *radius);
            put_float(to, STROKE_WIDTH, *width);
            put_color(to, COLOR, color);
        }
        Kind::Shadow {
            rect,
            radius,
            blur,
            color,
            skip_inside,
        } => {
            shape(to, rect, *radius);
            put_float(to, BLUR, *blur);
            put_color(to, COLOR, color);
            to[FLAGS] = *skip_inside as u8;
        }
        Kind::Glass(glass) => put_glass(to, glass),
        Kind::Straight {
            source,
            at,
            radius,
            alpha,
            dim,
        } => {
            put_word(to, SOURCE, *source);
            words(to, X, &at.map(|v| v as u32));
            put_float(to, RADIUS, *radius);
            put_word(to, ALPHA, *alpha);
            put_word(to, DIM, *dim);
        }
        Kind::Scaled {
            source,
            rect,
            radius,
            alpha,
        } => {
            put_word(to, SOURCE, *source);
            shape(to, rect, *radius);
            put_float(to, FLOAT_ALPHA, *alpha);
        }
        Kind::Genie {
            source,
            rect,
            target,
            t,
            alpha,
        } => {
            put_word(to, SOURCE, *source);
            floats(to, RECT, rect);
            floats(to, TARGET, target);
            put_float(to, T, *t);
            put_float(to, FLOAT_ALPHA, *alpha);
        }
        Kind::Frame {
            at,
            size,
            border,
            tag,
            tint,
            xray,
        } => {
            words(to, X, at);
            words(to, WIDTH, size);
            put_word(to, BORDER, *border);
            to[TAG] = *tag;
            to[FLAGS] = *tint as u8 + 2 * *xray as u8;
        }
    }
    body
}

fn put_glass(to: &mut Body, glass: &Glass) {
    shape(to, &glass.rect, glass.radius);
    put_float(to, BLUR, glass.blur);
    put_color(to, COLOR, &glass.tint);
    put_float(to, SATURATION, glass.saturation);
    put_float(to, BRIGHTNESS, glass.brightness);
    put_float(to, BEZEL, glass.bezel);
    put_float(to, SPEC, glass.spec);
    floats(to, TABLE, &glass.table);
}

fn put_paint(to: &mut Body, paint: &Paint) {
    let mut graded = |kind: u8, numbers: &[f32], [first, second]: &[Rgba; 2]| {
        to[PAINT] = kind;
        put_color(to, COLOR, first);
        put_color(to, SECOND_COLOR, second);
        floats(to, NUMBERS, numbers);
    };
    match paint {
        Paint::Solid(color) => put_color(to, COLOR, color),
        Paint::VGrad(numbers, colors) => graded(1, numbers, colors),
        Paint::Linear(numbers, colors) => graded(2, numbers, colors),
        Paint::Radial(numbers, colors) => graded(3, numbers, colors),
    }
}

fn shape(to: &mut Body, rect: &[f32; 4], radius: f32) {
    floats(to, RECT, rect);
    put_float(to, RADIUS, radius);
}

fn put_color(to: &mut Body, at: usize, color: &Rgba) {
    to[at..at + 4].copy_from_slice(color);
}

fn floats(to: &mut Body, at: usize, values: &[f32]) {
    for (i, v) in values.iter().enumerate() {
        put_float(to, at + 4 * i, *v);
    }
}

fn words(to: &mut Body, at: usize, values: &[u32]) {
    for (i, v) in values.iter().enumerate() {
        put_word(to, at + 4 * i, *v);
    }
}
