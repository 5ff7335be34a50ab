//! A layer as named values: its text, its rows in a list and its JSON are all made of them.
use crate::layers::TAGS;
use crate::{colour, number};
use tiglostrema::{Color, IRect, Layer, Paint, Rect};

/// A field of a layer.
#[derive(Clone, Debug, PartialEq)]
pub struct Field {
    /// Its name in a show's text.
    pub name: &'static str,
    /// What it holds.
    pub value: Value,
}

/// What a field holds.
#[derive(Clone, Debug, PartialEq)]
pub enum Value {
    /// Whole numbers.
    Whole(Vec<i64>),
    /// Numbers.
    Floats(Vec<f32>),
    /// A colour.
    Colour(Color),
    /// `yes` or `no`.
    Flag(bool),
    /// A tag's name.
    Tag(&'static str),
    /// A gradient: its form as a text names it, its numbers and its two colours.
    Gradient(&'static str, Vec<f32>, [Color; 2]),
    /// A displacement table. Where the bezel is 0.5 or less it is not read, and may hold anything.
    Table(Vec<f32>),
}

/// All the fields of a layer's kind, in the order in which a text gives them.
pub fn of(layer: &Layer) -> Vec<Field> {
    let mut all = own(layer);
    let IRect { x0, y0, x1, y1 } = layer.clip();
    all.push(whole("clip", [x0, y0, x1, y1]));
    all
}

/// The fields that not every kind has.
fn own(layer: &Layer) -> Vec<Field> {
    match layer {
        Layer::Fill(l) => vec![rect(l.rect), radius(l.radius), paint(&l.paint)],
        Layer::Stroke(l) => vec![
            rect(l.rect),
            radius(l.radius),
            floats("width", [l.width]),
            colour("colour", l.color),
        ],
        Layer::Shadow(l) => vec![
            rect(l.rect),
            radius(l.radius),
            floats("blur", [l.blur]),
            colour("colour", l.color),
            flag("skip_inside", l.skip_inside),
        ],
        Layer::Glass(l) => vec![
            rect(l.rect),
            radius(l.radius),
            floats("blur", [l.blur]),
            colour("tint", l.tint),
            floats("saturation", [l.saturation]),
            floats("brightness", [l.brightness]),
            floats("spec", [l.spec]),
            floats("bezel", [l.bezel]),
            field("table", Value::Table(l.displacement.to_vec())),
        ],
        Layer::Straight(l) => vec![
            whole("source", [l.source.number()]),
            whole("at", [l.x, l.y]),
            radius(l.radius),
            whole("alpha", [l.alpha]),
            whole("dim", [l.dim]),
        ],
        Layer::Scaled(l) => vec![
            whole("source", [l.source.number()]),
            rect(l.rect),
            radius(l.radius),
            floats("alpha", [l.alpha]),
        ],
        Layer::Genie(l) => vec![
            whole("source", [l.source.number()]),
            rect(l.rect),
            floats("target", [l.target.x, l.target.y]),
            floats("t", [l.t]),
            floats("alpha", [l.alpha]),
        ],
        Layer::Frame(l) => vec![
            whole("rect", [l.x, l.y, l.width, l.height]),
            whole("border", [l.border]),
            field("tag", Value::Tag(TAGS[usize::from(l.tag.number())])),
            flag("tint", l.tint),
            flag("xray", l.xray),
        ],
        _ => Vec::new(),
    }
}

fn field(name: &'static str, value: Value) -> Field {
    Field { name, value }
}

fn whole<T: Into<i64>, const N: usize>(name: &'static str, values: [T; N]) -> Field {
    field(name, Value::Whole(values.map(T::into).to_vec()))
}

fn floats<const N: usize>(name: &'static str, values: [f32; N]) -> Field {
    field(name, Value::Floats(values.to_vec()))
}

fn colour(name: &'static str, value: Color) -> Field {
    field(name, Value::Colour(value))
}

fn flag(name: &'static str, value: bool) -> Field {
    field(name, Value::Flag(value))
}

fn rect(r: Rect) -> Field {
    floats("rect", [r.x, r.y, r.w, r.h])
}

fn radius(r: f32) -> Field {
    floats("radius", [r])
}

fn paint(paint: &Paint) -> Field {
    let gradient = |form, numbers: &[f32], colours| {
        let numbers = numbers.to_vec();
        field("gradient", Value::Gradient(form, numbers, colours))
    };
    match *paint {
        Paint::Solid(c) => colour("colour", c),
        Paint::VGrad { y0, y1, c0, c1 } => gradient("vertical", &[y0, y1], [c0, c1]),
        Paint::Linear { p0, p1, c0, c1 } => gradient("linear", &[p0.x, p0.y, p1.x, p1.y], [c0, c1]),
        Paint::Radial { c, r, c0, c1 } => gradient("radial", &[c.x, c.y, r], [c0, c1]),
    }
}

impl Field {
    /// The field as a show's text gives it, as `rect 0 0 64 40`.
    pub fn words(&self) -> String {
        let mut words = vec![self.name.to_owned()];
        match &self.value {
            Value::Whole(numbers) => words.extend(numbers.iter().map(i64::to_string)),
            Value::Floats(numbers) | Value::Table(numbers) => {
                words.extend(numbers.iter().copied().map(number::show));
            }
            Value::Colour(colour) => words.push(colour::show(*colour)),
            Value::Flag(flag) => words.push(if *flag { "yes" } else { "no" }.to_owned()),
            Value::Tag(name) => words.push((*name).to_owned()),
            Value::Gradient(form, numbers, colours) => {
                words.push((*form).to_owned());
                words.extend(numbers.iter().copied().map(number::show));
                words.extend(colours.iter().copied().map(colour::show));
            }
        }
        words.join(" ")
    }

    /// The same for a list: of a table its first and its last number.
    pub fn brief(&self) -> String {
        let Value::Table(entries) = &self.value else {
            return self.words();
        };
        let end = |entry: Option<&f32>| entry.copied().map_or(String::new(), number::show);
        let (first, last) = (end(entries.first()), end(entries.last()));
        format!("{} {first} … {last} ({} numbers)", self.name, entries.len())
    }

    /// Whether a text need not give it: a clip that keeps everything, a table of zeros.
    pub fn is_implied(&self) -> bool {
        let all = IRect::EVERYWHERE;
        match &self.value {
            Value::Whole(sides) if self.name == "clip" => {
                *sides == [all.x0, all.y0, all.x1, all.y1].map(i64::from)
            }
            Value::Table(entries) => entries.iter().all(|entry| entry.to_bits() == 0),
            _ => false,
        }
    }
}

#[cfg(test)]
mod tests {
    use super::*;
    use tiglostrema::{Fill, Glass, StraightCopy};

    const RECT: Rect = Rect::new(1.0, -2.5, 3.0, 4.0);

    fn shown(layer: impl Into<Layer>) -> String {
        let fields = of(&layer.into());
        let given = fields.iter().filter(|f| !f.is_implied());
        given.map(Field::words).collect::<Vec<_>>().join("; ")
    }

    #[test]
    fn words_of_fields() {
        assert_eq!(
            shown(StraightCopy::new(3, -7, 8).with_clip(IRect::new(0, 1, 2, 3))),
            "source 3; at -7 8; radius 0; alpha 255; dim 0; clip 0 1 2 3"
        );
        let (c0, c1) = (Color::WHITE, Color::CLEAR);
        assert_eq!(
            shown(Fill::new(
                RECT,
                Paint::VGrad {
                    y0: -0.0,
                    y1: 9.0,
                    c0,
                    c1
                }
            )),
            "rect 1 -2.5 3 4; radius 0; gradient vertical -0 9 #FFFFFF #00000000"
        );
    }

    #[test]
    fn a_table_of_zeros_alone_is_implied() {
        let glass = |entry| {
            let mut table = [0.0; 33];
            table[7] = entry;
            Glass::new(RECT, 1.0).with_bezel(0.0, table)
        };
        assert!(!shown(glass(0.0)).contains("table"));
        assert!(shown(glass(-0.0)).contains("table 0 0 0 0 0 0 0 -0 0"));
        assert!(shown(glass(f32::NAN)).contains("table 0 0 0 0 0 0 0 0x7FC00000 0"));
    }
}
