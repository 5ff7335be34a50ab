//! Each field of each layer against its range: both ends are taken, and what lies just beyond them
//! is refused. The ranges differ from field to field, so a field in another's place would show.
use tiglostrema::{
    Cause, Color, Fill, Frame, Genie, Glass, IRect, Layer, Paint, Point, Rect, Rundown, ScaledCopy,
    SecurityTag, Shadow, StraightCopy, Stroke,
};

const RECT: Rect = Rect::new(1.0, 2.0, 30.0, 40.0);
const INK: Color = Color::WHITE;

fn verdict(layer: Layer) -> Result<(), Cause> {
    let refusal = match Rundown::new().add(1, layer) {
        Ok(_) => return Ok(()),
        Err(refusal) => refusal,
    };
    assert!(refusal.field().is_some(), "{refusal}");
    Err(refusal.cause())
}

fn above(value: f32) -> f32 {
    assert!(value > 0.0);
    f32::from_bits(value.to_bits() + 1)
}

/// The float just below; below 0 it is the least negative one.
fn below(value: f32) -> f32 {
    match value {
        0.0 => -f32::from_bits(1),
        _ => -above(-value),
    }
}

fn float(lo: f32, hi: f32, layer: impl Fn(f32) -> Layer) {
    for value in [lo, hi, (lo + hi) / 2.0, if lo == 0.0 { -0.0 } else { lo }] {
        assert_eq!(verdict(layer(value)), Ok(()), "{:?}", layer(value));
    }
    for value in [
        below(lo),
        above(hi),
        f32::NAN,
        f32::INFINITY,
        f32::NEG_INFINITY,
    ] {
        assert_eq!(
            verdict(layer(value)),
            Err(Cause::FloatRange),
            "{:?}",
            layer(value)
        );
    }
}

/// An entry of a table, which is 0 to 1024; of these the bezel allows so much.
fn entry(most: f32, layer: impl Fn(f32) -> Layer) {
    let cases = [
        (&[0.0, -0.0, most / 2.0, most][..], Ok(())),
        (&[above(most), 1024.0], Err(Cause::Bend)),
        (&[below(0.0), above(1024.0)], Err(Cause::FloatRange)),
        (&[f32::NAN, f32::INFINITY], Err(Cause::FloatRange)),
    ];
    for (values, expected) in cases {
        for value in values {
            assert_eq!(verdict(layer(*value)), expected, "{:?}", layer(*value));
        }
    }
}

fn integer(lo: i32, hi: i32, layer: impl Fn(i32) -> Layer) {
    for value in [lo, hi] {
        assert_eq!(verdict(layer(value)), Ok(()), "{:?}", layer(value));
    }
    for value in [lo - 1, hi + 1, i32::MIN, i32::MAX] {
        assert_eq!(
            verdict(layer(value)),
            Err(Cause::IntegerRange),
            "{:?}",
            layer(value)
        );
    }
}

fn rect(layer: impl Fn(Rect) -> Layer) {
    float(-16384.0, 16384.0, |x| layer(Rect { x, ..RECT }));
    float(-16384.0, 16384.0, |y| layer(Rect { y, ..RECT }));
    float(0.0, 16384.0, |w| layer(Rect { w, ..RECT }));
    float(0.0, 16384.0, |h| layer(Rect { h, ..RECT }));
}

fn clip(layer: impl Fn(IRect) -> Layer) {
    let whole = IRect::EVERYWHERE;
    integer(-16384, 16384, |x0| layer(IRect { x0, ..whole }));
    integer(-16384, 16384, |y0| layer(IRect { y0, ..whole }));
    integer(-16384, 16384, |x1| layer(IRect { x1, ..whole }));
    integer(-16384, 16384, |y1| layer(IRect { y1, ..whole }));
}

#[test]
fn fills() {
    let fill = Fill::new(RECT, INK);
    rect(|rect| Fill::new(rect, INK).into());
    clip(|clip| fill.with_clip(clip).into());
    float(0.0, 8192.0, |radius| fill.with_radius(radius).into());
}

#[test]
fn paints() {
    let (c0, c1) = (INK, Color::CLEAR);
    let (p0, p1) = (Point::new(1.0, 2.0), Point::new(3.0, 4.0));
    let place = |paint: &dyn Fn(f32) -> Paint| {
        float(-16384.0, 16384.0, |value| {
            Fill::new(RECT, paint(value)).into()
        });
    };
    place(&|y0| Paint::VGrad {
        y0,
        y1: 1.0,
        c0,
        c1,
    });
    place(&|y1| Paint::VGrad {
        y0: 1.0,
        y1,
        c0,
        c1,
    });
    place(&|x| Paint::Linear {
        p0: Point { x, ..p0 },
        p1,
        c0,
        c1,
    });
    place(&|y| Paint::Linear {
        p0: Point { y, ..p0 },
        p1,
        c0,
        c1,
    });
    place(&|x| Paint::Linear {
        p0,
        p1: Point { x, ..p1 },
        c0,
        c1,
    });
    place(&|y| Paint::Linear {
        p0,
        p1: Point { y, ..p1 },
        c0,
        c1,
    });
    place(&|x| Paint::Radial {
        c: Point { x, ..p0 },
        r: 1.0,
        c0,
        c1,
    });
    place(&|y| Paint::Radial {
        c: Point { y, ..p0 },
        r: 1.0,
        c0,
        c1,
    });
    float(0.0, 16384.0, |r| {
        Fill::new(RECT, Paint::Radial { c: p0, r, c0, c1 }).into()
    });
}

#[test]
fn strokes() {
    let stroke = Stroke::new(RECT, 1.0, INK);
    rect(|rect| Stroke::new(rect, 1.0, INK).into());
    clip(|clip| stroke.with_clip(clip).into());
    float(0.0, 8192.0, |radius| stroke.with_radius(radius).into());
    float(0.0, 256.0, |width| Stroke::new(RECT, width, INK).into());
}

#[test]
fn shadows() {
    let shadow = Shadow::new(RECT, 1.0, INK);
    rect(|rect| Shadow::new(rect, 1.0, INK).into());
    clip(|clip| shadow.with_clip(clip).into());
    float(0.0, 8192.0, |radius| shadow.with_radius(radius).into());
    float(0.0, 256.0, |blur| Shadow::new(RECT, blur, INK).into());
}

#[test]
fn panels() {
    let glass = Glass::new(RECT, 1.0);
    rect(|rect| Glass::new(rect, 1.0).into());
    clip(|clip| glass.with_clip(clip).into());
    float(0.0, 8192.0, |radius| glass.with_radius(radius).into());
    float(0.0, 64.0, |blur| Glass::new(RECT, blur).into());
    float(0.0, 8.0, |saturation| {
        glass.with_saturation(saturation).into()
    });
    float(-1.0, 1.0, |brightness| {
        glass.with_brightness(brightness).into()
    });
    float(0.0, 256.0, |bezel| {
        glass.with_bezel(bezel, [0.0; 33]).into()
    });
    float(0.0, 1.0, |spec| glass.with_spec(spec).into());
    for i in 0..32 {
        for (bezel, most) in [(1.0, 1.6), (256.0, f32::from_bits(0x43CC_CCCD))] {
            entry(most, |entry| {
                let mut table = [0.0; 33];
                table[i] = entry;
                glass.with_bezel(bezel, table).into()
            });
        }
    }
}

#[test]
fn a_table_ends_in_zero_and_is_read_beyond_half_a_pixel() {
    let mut table = [0.0; 33];
    table[32] = 1.0;
    let glass = Glass::new(RECT, 1.0);
    assert_eq!(
        verdict(glass.with_bezel(0.75, table).into()),
        Err(Cause::FloatRange)
    );
    assert_eq!(verdict(glass.with_bezel(0.5, table).into()), Ok(()));
    assert_eq!(
        verdict(glass.with_bezel(0.5, [f32::NAN; 33]).into()),
        Ok(())
    );
}

#[test]
fn straight_copies() {
    let copy = StraightCopy::new(0, 0, 0);
    integer(-16384, 16384, |x| StraightCopy::new(0, x, 0).into());
    integer(-16384, 16384, |y| StraightCopy::new(0, 0, y).into());
    clip(|clip| copy.with_clip(clip).into());
    float(0.0, 8192.0, |radius| copy.with_radius(radius).into());
}

#[test]
fn scaled_copies() {
    let copy = ScaledCopy::new(0, RECT);
    rect(|rect| ScaledCopy::new(0, rect).into());
    clip(|clip| copy.with_clip(clip).into());
    float(0.0, 8192.0, |radius| copy.with_radius(radius).into());
    float(0.0, 1.0, |alpha| copy.with_alpha(alpha).into());
}

#[test]
fn genies() {
    let genie = |target, t| Genie::new(0, RECT, target, t);
    let here = Point::new(5.0, 6.0);
    rect(|rect| Genie::new(0, rect, here, 0.5).into());
    clip(|clip| genie(here, 0.5).with_clip(clip).into());
    float(-16384.0, 16384.0, |x| {
        genie(Point { x, ..here }, 0.5).into()
    });
    float(-16384.0, 16384.0, |y| {
        genie(Point { y, ..here }, 0.5).into()
    });
    float(0.0, 1.0, |t| genie(here, t).into());
    float(0.0, 1.0, |alpha| genie(here, 0.5).with_alpha(alpha).into());
}

#[test]
fn frames() {
    let unsigned = |hi: i32, layer: &dyn Fn(u32) -> Frame| {
        integer(0, hi, |value| layer(value as u32).into());
    };
    let tag = SecurityTag::MintPersonal;
    unsigned(16384, &|x| Frame::new(x, 0, 1, 1, tag));
    unsigned(16384, &|y| Frame::new(0, y, 1, 1, tag));
    unsigned(4096, &|width| Frame::new(0, 0, width, 1, tag));
    unsigned(4096, &|height| Frame::new(0, 0, 1, height, tag));
    unsigned(4096, &|border| {
        Frame::new(0, 0, 1, 1, tag).with_border(border)
    });
}
