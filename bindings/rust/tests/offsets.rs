//! Where each field of each layer stands in its block.
mod common;

use common::block;
use tiglostrema::{
    Color, Fill, Frame, Genie, Glass, IRect, Layer, Paint, Point, Rect, ScaledCopy, SecurityTag,
    Shadow, StraightCopy, Stroke,
};

const RECT: Rect = Rect::new(1.5, 2.5, 3.5, 4.5);
const INK: Color = Color::rgba(0x11, 0x22, 0x33, 0x44);
const OTHER: Color = Color::rgba(0x55, 0x66, 0x77, 0x88);

/// A field's offset and its bytes.
type Field = (usize, Vec<u8>);

fn byte(at: usize, value: u8) -> Field {
    (at, vec![value])
}

fn word(at: usize, value: i32) -> Field {
    (at, value.to_le_bytes().to_vec())
}

fn floats(at: usize, values: &[f32]) -> Field {
    (
        at,
        values
            .iter()
            .flat_map(|value| value.to_le_bytes())
            .collect(),
    )
}

fn ink(at: usize) -> Field {
    (at, vec![0x11, 0x22, 0x33, 0x44])
}

fn other(at: usize) -> Field {
    (at, vec![0x55, 0x66, 0x77, 0x88])
}

fn rect() -> Field {
    floats(32, &[1.5, 2.5, 3.5, 4.5])
}

/// The layer's block has these fields and the common ones, zeros everywhere else, and the check.
fn stands(layer: impl Into<Layer>, kind: u8, fields: &[Field]) {
    let layer = layer.into();
    let clip = layer.clip();
    let mut expected = vec![0; 512];
    let mut put = |(at, bytes): &Field| expected[*at..*at + bytes.len()].copy_from_slice(bytes);
    put(&byte(0, kind));
    put(&(2, vec![0x34, 0x12]));
    for (i, side) in [clip.x0, clip.y0, clip.x1, clip.y1].into_iter().enumerate() {
        put(&word(236 + 4 * i, side));
    }
    fields.iter().for_each(put);
    assert_eq!(block(0x1234, layer), common::seal(expected), "{layer:?}");
}

#[test]
fn shapes() {
    let clip = IRect::new(-1, -2, 3, 4);
    let solid = Fill::new(RECT, INK).with_radius(0.75).with_clip(clip);
    stands(solid, 1, &[rect(), floats(48, &[0.75]), ink(56)]);
    let stroke = Stroke::new(RECT, 6.5, INK)
        .with_radius(0.75)
        .with_clip(clip);
    stands(
        stroke,
        2,
        &[rect(), floats(48, &[0.75]), ink(56), floats(100, &[6.5])],
    );
    let shadow = Shadow::new(RECT, 7.5, INK)
        .with_radius(0.75)
        .with_clip(clip);
    let fields = [rect(), floats(48, &[0.75, 7.5]), ink(56)];
    stands(shadow, 3, &fields);
    let skipping = [&fields[..], &[byte(1, 1)]].concat();
    stands(shadow.with_skip_inside(true), 3, &skipping);
}

#[test]
fn paints() {
    let (c0, c1) = (INK, OTHER);
    let gradient = |paint, number: u8, numbers: &[f32]| {
        let fields = [
            rect(),
            ink(56),
            byte(29, number),
            other(252),
            floats(256, numbers),
        ];
        stands(Fill::new(RECT, paint), 1, &fields);
    };
    gradient(
        Paint::VGrad {
            y0: 8.5,
            y1: 9.5,
            c0,
            c1,
        },
        1,
        &[8.5, 9.5],
    );
    let (p0, p1) = (Point::new(1.25, 2.25), Point::new(3.25, 4.25));
    gradient(
        Paint::Linear { p0, p1, c0, c1 },
        2,
        &[1.25, 2.25, 3.25, 4.25],
    );
    gradient(
        Paint::Radial {
            c: p1,
            r: 5.25,
            c0,
            c1,
        },
        3,
        &[3.25, 4.25, 5.25],
    );
}

#[test]
fn glass() {
    let table: [f32; 33] = std::array::from_fn(|i| 32.0 - i as f32);
    let panel = Glass::new(RECT, 7.5)
        .with_radius(0.75)
        .with_tint(INK)
        .with_saturation(1.125)
        .with_brightness(-0.25)
        .with_bezel(20.25, table)
        .with_spec(0.625);
    let style = floats(60, &[1.125, -0.25, 20.25, 0.625]);
    let fields = [
        rect(),
        floats(48, &[0.75, 7.5]),
        ink(56),
        style,
        floats(104, &table),
    ];
    stands(panel, 4, &fields);
}

#[test]
fn copies() {
    let copy = StraightCopy::new(9, -10, 11)
        .with_radius(0.75)
        .with_alpha(200)
        .with_dim(30);
    let places = [word(4, 9), word(8, -10), word(12, 11), floats(48, &[0.75])];
    stands(
        copy,
        5,
        &[&places[..], &[word(76, 200), word(80, 30)]].concat(),
    );
    let copy = ScaledCopy::new(9, RECT).with_radius(0.75).with_alpha(0.375);
    stands(
        copy,
        6,
        &[
            word(4, 9),
            rect(),
            floats(48, &[0.75]),
            floats(84, &[0.375]),
        ],
    );
    let genie = Genie::new(9, RECT, Point::new(12.5, 13.5), 0.875).with_alpha(0.375);
    stands(
        genie,
        7,
        &[word(4, 9), rect(), floats(84, &[0.375, 0.875, 12.5, 13.5])],
    );
}

#[test]
fn frames() {
    for (number, tag) in SecurityTag::ALL.into_iter().enumerate() {
        let frame = Frame::new(1, 2, 3, 5, tag).with_border(6);
        let size = [
            word(8, 1),
            word(12, 2),
            word(16, 3),
            word(20, 5),
            word(24, 6),
        ];
        let fields = [&size[..], &[byte(28, number as u8)]].concat();
        stands(frame, 8, &fields);
        stands(
            frame.with_tint(true),
            8,
            &[&fields[..], &[byte(1, 1)]].concat(),
        );
        stands(
            frame.with_xray(true),
            8,
            &[&fields[..], &[byte(1, 2)]].concat(),
        );
        stands(
            frame.with_tint(true).with_xray(true),
            8,
            &[&fields[..], &[byte(1, 3)]].concat(),
        );
    }
}
