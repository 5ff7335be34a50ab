//! Rundowns as JSON, for other programs.
use crate::boxes::{self, Sizes};
use crate::values::{self, Field, Value};
use crate::{colour, describe, number};
use tiglostrema::{Dearest, Forecast, IRect, Layer, Rundown, SourceId};

/// A rundown as a JSON array with an object for each layer, in playing order: `priority`, `block`, `kind`,
/// `source` (null where the kind has none), `source_name` (null where `names`, those of source 0, 1 and so on, has
/// none for it), `box` (null where the source's size is not known), then every field by its name in a show's text.
///
/// Floats are written so that they are read back to the same bits. An entry of a table that is no finite number
/// is a string with its bits, as `"0x7FC00000"`; only a table that is not read can have one.
///
/// ```
/// let made = show::make("layer 5 copy; source 0; at 1 -2")?;
/// let sizes = show::boxes::Sizes { canvas: Some((64, 40)), sources: &[(8, 8)] };
/// assert_eq!(
///     show::json(&made.rundown, &sizes, &["studio".to_owned()]),
///     r#"[
///   {"priority": 5, "block": 0, "kind": "copy", "source": 0, "source_name": "studio", "box": {"x": 1, "y": 0, "width": 8, "height": 6}, "at": [1, -2], "radius": 0.0, "alpha": 255, "dim": 0, "clip": [-16384, -16384, 16384, 16384]}
/// ]
/// "#
/// );
/// # Ok::<(), Vec<show::Problem>>(())
/// ```
pub fn json(rundown: &Rundown, sizes: &Sizes<'_>, names: &[String]) -> String {
    let boxes = boxes::of(rundown, sizes);
    let mut layers: Vec<_> = rundown.iter().zip(boxes).enumerate().collect();
    layers.sort_by_key(|(_, ((priority, _), _))| *priority);
    let objects = layers.iter().map(|(block, ((priority, layer), area))| {
        let head = format!("\"priority\": {priority}, \"block\": {block}");
        format!("{{{head}, {}}}", members(layer, *area, names))
    });
    format!("{}\n", lines(objects))
}

/// A rundown's forecast as a JSON object: `layers`, `scratch` (the bytes of each slice), `cells`, and `blocks`, an array
/// with an object for each layer in the order of the blocks: `block`, `priority`, `kind` and `box`.
pub fn forecast_json(rundown: &Rundown, forecast: &Forecast) -> String {
    let blocks = rundown.iter().zip(boxes::forecast(forecast)).enumerate();
    let blocks = blocks.map(|(block, ((priority, layer), area))| {
        let (kind, area) = (describe::kind(&layer), object(area));
        format!(
            "{{\"block\": {block}, \"priority\": {priority}, \"kind\": \"{kind}\", \"box\": {area}}}"
        )
    });
    let (layers, scratch) = (forecast.layers(), forecast.scratch());
    let totals = format!(
        "\"layers\": {layers}, \"scratch\": {scratch}, \"cells\": {}",
        forecast.cells()
    );
    format!("{{{totals}, \"blocks\": {}}}\n", lines(blocks))
}

/// The need of the dearest panel on a canvas as a JSON object: `width` and `height` of the canvas, `blur`, and `scratch`
/// (the bytes of each slice).
pub fn dearest_json((width, height): (u32, u32), panel: &Dearest) -> String {
    let (blur, scratch) = (float(panel.glass().blur), panel.scratch());
    format!(
        "{{\"width\": {width}, \"height\": {height}, \"blur\": {blur}, \"scratch\": {scratch}}}\n"
    )
}

/// The steps of a playing as a JSON object: `layers`, and `steps`, an array with an object for each step in its order:
/// `priority`, `kind`, `source` (null where the kind has none), and `fresh`, an array with the numbers of the sources
/// that got another picture right before it.
pub fn steps_json(steps: &[(u16, Layer, Vec<SourceId>)]) -> String {
    let objects = steps.iter().map(|(priority, layer, fresh)| {
        let source = layer.source().map_or("null".to_owned(), |s| s.to_string());
        format!(
            "{{\"priority\": {priority}, \"kind\": \"{}\", \"source\": {source}, \"fresh\": {}}}",
            describe::kind(layer),
            array(fresh.iter().map(SourceId::to_string))
        )
    });
    let layers = steps.len();
    format!("{{\"layers\": {layers}, \"steps\": {}}}\n", lines(objects))
}

/// An array with a line for each value.
fn lines(values: impl Iterator<Item = String>) -> String {
    let values: Vec<String> = values.map(|value| format!("\n  {value}")).collect();
    let end = if values.is_empty() { "" } else { "\n" };
    format!("[{}{end}]", values.join(","))
}

/// What an object has besides the layer's place.
fn members(layer: &Layer, area: Option<IRect>, names: &[String]) -> String {
    let null = || "null".to_owned();
    let source = layer.source();
    let name = source.and_then(|number| names.get(number.index()));
    let area = area.map_or_else(null, object);
    let mut members = vec![
        format!("\"kind\": \"{}\"", describe::kind(layer)),
        format!(
            "\"source\": {}",
            source.map_or_else(null, |s| s.to_string())
        ),
        // A name has letters, digits, `_` and `-` alone, which JSON takes as they are.
        format!(
            "\"source_name\": {}",
            name.map_or_else(null, |n| format!("\"{n}\""))
        ),
        format!("\"box\": {area}"),
    ];
    let fields = values::of(layer);
    // The source stands there already, for every kind.
    let others = fields.iter().filter(|field| field.name != "source");
    members.extend(others.map(|field| format!("\"{}\": {}", field.name, value(field))));
    members.join(", ")
}

/// A box as an object; of an empty one the width or the height is 0.
fn object(area: IRect) -> String {
    let (x, y) = (area.x0, area.y0);
    let (width, height) = ((area.x1 - x).max(0), (area.y1 - y).max(0));
    format!("{{\"x\": {x}, \"y\": {y}, \"width\": {width}, \"height\": {height}}}")
}

fn value(field: &Field) -> String {
    let floats = |numbers: &[f32]| array(numbers.iter().copied().map(float));
    let colour = |c| format!("\"{}\"", colour::show(c));
    match &field.value {
        Value::Whole(numbers) => match numbers[..] {
            [one] => one.to_string(),
            _ => array(numbers.iter().map(i64::to_string)),
        },
        Value::Floats(numbers) => match numbers[..] {
            [one] => float(one),
            _ => floats(numbers),
        },
        Value::Table(entries) => floats(entries),
        Value::Colour(c) => colour(*c),
        Value::Flag(flag) => flag.to_string(),
        Value::Tag(name) => format!("\"{name}\""),
        Value::Gradient(form, numbers, colours) => format!(
            "{{\"form\": \"{form}\", \"numbers\": {}, \"colours\": {}}}",
            floats(numbers),
            array(colours.iter().copied().map(colour))
        ),
    }
}

fn array(values: impl Iterator<Item = String>) -> String {
    format!("[{}]", values.collect::<Vec<_>>().join(", "))
}

/// A float, -0 as -0.0. Most readers of JSON have doubles: where the shortest word for a float, read as a double,
/// would be rounded to another float, more digits are written.
fn float(value: f32) -> String {
    if !value.is_finite() {
        return format!("\"{}\"", number::show(value));
    }
    let short = format!("{value:?}");
    let double: Option<f64> = short.parse().ok();
    match double.map(|d| (d as f32).to_bits()) == Some(value.to_bits()) {
        true => short,
        false => format!("{:?}", f64::from(value)),
    }
}

#[cfg(test)]
mod tests {
    use super::*;

    #[test]
    fn floats_are_read_back_as_floats_and_as_doubles() {
        for i in 0..200_000_u32 {
            let value = f32::from_bits(i.wrapping_mul(2_654_435_761));
            let word = float(value);
            if value.is_finite() {
                let double: f64 = word.parse().unwrap();
                let single: f32 = word.parse().unwrap();
                assert_eq!((double as f32).to_bits(), value.to_bits(), "{word}");
                assert_eq!(single.to_bits(), value.to_bits(), "{word}");
            } else {
                assert_eq!(word, format!("\"0x{:08X}\"", value.to_bits()));
            }
        }
        assert_eq!(float(-0.0), "-0.0");
        assert_eq!(float(1.8), "1.8");
    }

    #[test]
    fn a_word_that_doubles_would_round_twice_gets_more_digits() {
        // Its shortest word, 7.038531e-26, is rounded to another float by way of a double.
        let value: f32 = "7.038531e-26".parse().unwrap();
        assert_ne!((7.038531e-26_f64 as f32).to_bits(), value.to_bits());
        let word = float(value);
        assert_eq!(
            (word.parse::<f64>().unwrap() as f32).to_bits(),
            value.to_bits()
        );
    }
}
