//! A field that is out of its range is named as the layer's struct names it.
use tiglostrema::{
    Cause, Color, Fill, Frame, Genie, Glass, IRect, Layer, Paint, Point, Rect, Rundown, ScaledCopy,
    SecurityTag, Shadow, StraightCopy, Stroke,
};

const RECT: Rect = Rect::new(1.0, 2.0, 30.0, 40.0);
const WIDE: Rect = Rect::new(1.0, 2.0, 16385.0, 40.0);
const HERE: Point = Point::new(3.0, 4.0);
const AWAY: Point = Point::new(3.0, f32::NAN);
const INK: Color = Color::WHITE;

/// The layer is refused for this field, whether it is added or put in another's place.
fn names(layer: impl Into<Layer>, field: &str) {
    let layer = layer.into();
    let mut rundown = Rundown::new();
    let added = rundown.add(7, layer).expect_err(field);
    rundown.add(7, Fill::new(RECT, INK)).expect("in range");
    assert_eq!(rundown.replace(7, layer), Err(added));
    assert_eq!(rundown.update(7, |was| *was = layer), Err(added));
    assert_eq!(added.field(), Some(field), "{layer:?}");
    let words = match added.cause() {
        Cause::FloatRange => format!("`{field}` is not finite or out of its range (cause 6)"),
        _ => format!("`{field}` is out of its range (cause 7)"),
    };
    assert_eq!(added.to_string(), format!("block 0, priority 7: {words}"));
}

#[test]
fn shapes() {
    names(Fill::new(WIDE, INK), "rect");
    names(Fill::new(RECT, INK).with_radius(-1.0), "radius");
    let (c0, c1) = (INK, INK);
    let (p0, p1, y0, y1) = (HERE, AWAY, 0.0, 16385.0);
    names(Fill::new(RECT, Paint::VGrad { y0, y1, c0, c1 }), "paint");
    names(Fill::new(RECT, Paint::Linear { p0, p1, c0, c1 }), "paint");
    let (c, r) = (HERE, -1.0);
    names(Fill::new(RECT, Paint::Radial { c, r, c0, c1 }), "paint");
    let clip = IRect::new(0, 0, 16385, 1);
    names(Fill::new(RECT, INK).with_clip(clip), "clip");
    names(Stroke::new(WIDE, 1.0, INK), "rect");
    names(Stroke::new(RECT, 257.0, INK), "width");
    names(Shadow::new(RECT, 257.0, INK), "blur");
}

#[test]
fn panels() {
    let glass = Glass::new(RECT, 4.0);
    let mut bent = [0.0; 33];
    names(Glass::new(RECT, 65.0), "blur");
    names(glass.with_saturation(9.0), "saturation");
    names(glass.with_brightness(-2.0), "brightness");
    names(glass.with_spec(2.0), "spec");
    names(glass.with_bezel(257.0, bent), "bezel");
    bent[4] = 1025.0;
    names(glass.with_bezel(1.0, bent), "displacement");
    names(glass.with_bezel(257.0, bent), "bezel");
    bent[4] = 0.0;
    bent[32] = 1.0;
    names(glass.with_bezel(1.0, bent), "displacement");
}

#[test]
fn copies() {
    names(StraightCopy::new(0, 16385, 0), "x");
    names(StraightCopy::new(0, 0, -16385), "y");
    names(StraightCopy::new(0, 16385, 0).with_radius(-1.0), "radius");
    names(ScaledCopy::new(0, RECT).with_alpha(1.5), "alpha");
    names(Genie::new(0, RECT, AWAY, 0.5), "target");
    names(Genie::new(0, RECT, HERE, 1.5), "t");
    names(Genie::new(0, RECT, HERE, 0.5).with_alpha(-1.0), "alpha");
}

#[test]
fn frames() {
    let tag = SecurityTag::AmberUsb;
    names(Frame::new(16385, 0, 1, 1, tag), "x");
    names(Frame::new(0, u32::MAX, 1, 1, tag), "y");
    names(Frame::new(0, 0, 4097, 1, tag), "width");
    names(Frame::new(0, 0, 1, 4097, tag), "height");
    names(Frame::new(0, 0, 1, 1, tag).with_border(4097), "border");
}

#[test]
fn other_causes_name_no_field() {
    let mut rundown = Rundown::new();
    rundown.add(7, Fill::new(RECT, INK)).expect("in range");
    let twice = rundown.add(7, Fill::new(RECT, INK)).expect_err("twice");
    let absent = rundown.remove(8).expect_err("absent");
    assert_eq!((twice.field(), absent.field()), (None, None));
}
