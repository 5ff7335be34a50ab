//! What a fill is filled with.
use crate::colour;
use crate::fields::Fields;
use crate::ranges::Numbers;
use crate::statement::Statement;
use crate::suggest::did_you_mean;
use tiglostrema::{Color, Paint, Point};

/// The forms of gradients with what stands behind them, two colours included.
const FORMS: [(&str, &str); 3] = [
    ("vertical", "vertical Y0 Y1 COLOUR COLOUR"),
    ("linear", "linear X0 Y0 X1 Y1 COLOUR COLOUR"),
    ("radial", "radial X Y RADIUS COLOUR COLOUR"),
];

/// A colour or a gradient.
pub fn paint(f: &mut Fields<'_>) -> Paint {
    let Some(field) = f.take("gradient") else {
        return f.colour("colour", None).into();
    };
    // A fill with a gradient has no colour besides; the field is known, but not wanted.
    if let Some(colour) = f.take("colour").or_else(|| f.take("color")) {
        f.problem(colour.name, "a fill has a colour or a gradient, not both");
    }
    gradient(f, &field).unwrap_or(Paint::Solid(Color::CLEAR))
}

fn gradient(f: &mut Fields<'_>, field: &Statement<'_>) -> Option<Paint> {
    let (form, usage) = form(f, field)?;
    let words = &field.values[1..];
    // The form's own name stands before its values, two colours behind them.
    let count = usage.split_whitespace().count() - 3;
    if words.len() != count + 2 {
        let found = words.len();
        let message = format!("expected `gradient {usage}`, found {found} values behind `{form}`");
        f.problem(field.values[0], message);
        return None;
    }
    let (numbers, colours) = words.split_at(count);
    let all = Numbers::of("fill", form, usage);
    let n = f.each(numbers, |place, word| all.float(place, word));
    let c = f.each(colours, |_, word| colour::read(word));
    Some(of(form, &n?, &c?))
}

/// The form that the field's first word names, with its usage.
fn form(f: &mut Fields<'_>, field: &Statement<'_>) -> Option<(&'static str, &'static str)> {
    let first = *field.values.first().unwrap_or(&field.name);
    let found = FORMS.iter().find(|(name, _)| *name == first.text);
    if found.is_none() {
        let near = did_you_mean(first.text, &FORMS.map(|(name, _)| name));
        let all = FORMS.map(|(_, usage)| format!("`gradient {usage}`"));
        let message = format!("expected {}, {} or {}{near}", all[0], all[1], all[2]);
        f.problem(first, message);
    }
    found.copied()
}

/// The gradient of a form with its numbers and colours, which are as many as its usage says.
fn of(form: &str, n: &[f32], c: &[Color]) -> Paint {
    let (c0, c1) = (c[0], c[1]);
    match form {
        "vertical" => Paint::VGrad {
            y0: n[0],
            y1: n[1],
            c0,
            c1,
        },
        "linear" => Paint::Linear {
            p0: Point::new(n[0], n[1]),
            p1: Point::new(n[2], n[3]),
            c0,
            c1,
        },
        _ => Paint::Radial {
            c: Point::new(n[0], n[1]),
            r: n[2],
            c0,
            c1,
        },
    }
}
