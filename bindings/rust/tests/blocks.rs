//! The bytes of a block of each kind, held to the file that the header's writers for C are held to.
mod common;

use common::block;
use tiglostrema::{
    Color, Fill, Frame, Genie, Glass, IRect, Layer, Paint, Point, Rect, ScaledCopy, SecurityTag,
    Shadow, StraightCopy, Stroke,
};

const RECT: Rect = Rect::new(1.5, 2.5, 3.5, 4.5);
const CLIP: IRect = IRect::new(-1, -2, 7, 8);
const INK: Color = Color::rgba(0x11, 0x22, 0x33, 0x44);
const OTHER: Color = Color::rgba(0x55, 0x66, 0x77, 0x88);

/// The layer's name, and its block in rows of 16 bytes behind their offsets; rows of zeros are left
/// out.
fn dump(name: &str, layer: Layer) -> String {
    let mut text = format!("{name}\n");
    for (i, row) in block(0x1234, layer).chunks(16).enumerate() {
        if row.iter().any(|byte| *byte != 0) {
            let bytes: String = row.iter().map(|byte| format!(" {byte:02x}")).collect();
            text += &format!("{:3}:{bytes}\n", 16 * i);
        }
    }
    text
}

fn fills() -> Vec<(&'static str, Layer)> {
    let fill = |paint: Paint| {
        Fill::new(RECT, paint)
            .with_radius(0.75)
            .with_clip(CLIP)
            .into()
    };
    let (c0, c1) = (INK, OTHER);
    let (y0, y1) = (8.5, 9.5);
    let (p0, p1) = (Point::new(1.25, 2.25), Point::new(3.25, 4.25));
    let (c, r) = (Point::new(5.25, 6.25), 7.25);
    vec![
        ("fill solid", fill(Paint::Solid(INK))),
        ("fill vgrad", fill(Paint::VGrad { y0, y1, c0, c1 })),
        ("fill linear", fill(Paint::Linear { p0, p1, c0, c1 })),
        ("fill radial", fill(Paint::Radial { c, r, c0, c1 })),
    ]
}

fn shapes() -> Vec<(&'static str, Layer)> {
    let stroke = Stroke::new(RECT, 6.5, INK)
        .with_radius(0.75)
        .with_clip(CLIP);
    let shadow = Shadow::new(RECT, 7.5, INK)
        .with_radius(0.75)
        .with_clip(CLIP);
    let glass = Glass::new(RECT, 7.5)
        .with_radius(0.75)
        .with_tint(INK)
        .with_saturation(1.125)
        .with_brightness(-0.25)
        .with_bezel(20.25, std::array::from_fn(|i| 32.0 - i as f32))
        .with_spec(0.625)
        .with_clip(CLIP);
    vec![
        ("stroke", stroke.into()),
        ("shadow", shadow.into()),
        ("shadow skip_inside", shadow.with_skip_inside(true).into()),
        ("glass", glass.into()),
    ]
}

fn copies() -> Vec<(&'static str, Layer)> {
    let straight = StraightCopy::new(9, -10, 11)
        .with_radius(0.75)
        .with_alpha(200)
        .with_dim(30)
        .with_clip(CLIP);
    let scaled = ScaledCopy::new(9, RECT)
        .with_radius(0.75)
        .with_alpha(0.375)
        .with_clip(CLIP);
    let genie = Genie::new(9, RECT, Point::new(12.5, 13.5), 0.875)
        .with_alpha(0.375)
        .with_clip(CLIP);
    vec![
        ("straight", straight.into()),
        ("scaled", scaled.into()),
        ("genie", genie.into()),
    ]
}

fn frame(tag: SecurityTag) -> Frame {
    let mut frame = Frame::new(9, 10, 11, 12, tag).with_border(13);
    frame.clip = CLIP;
    frame
}

fn frames() -> Vec<(&'static str, Layer)> {
    let amber = frame(SecurityTag::AmberUsb);
    let all = [
        ("frame obsidian admin", frame(SecurityTag::ObsidianAdmin)),
        ("frame purple vault", frame(SecurityTag::PurpleVault)),
        ("frame mint personal", frame(SecurityTag::MintPersonal)),
        ("frame blue work", frame(SecurityTag::BlueWork)),
        ("frame amber usb", amber),
        (
            "frame red untrusted net",
            frame(SecurityTag::RedUntrustedNet),
        ),
        (
            "frame magenta disposable",
            frame(SecurityTag::MagentaDisposable),
        ),
        ("frame tint", amber.with_tint(true)),
        ("frame xray", amber.with_xray(true)),
    ];
    all.map(|(name, frame)| (name, frame.into())).to_vec()
}

#[test]
fn the_bytes_are_those_that_c_writes() {
    let layers = [fills(), shapes(), copies(), frames()].concat();
    let text: String = layers
        .into_iter()
        .map(|(name, layer)| dump(name, layer))
        .collect();
    assert_eq!(text, include_str!("../../../tests/surface/blocks.out"));
}
