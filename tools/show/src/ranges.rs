//! What the numbers of each field may be. The library alone decides; with this table a message can point at the
//! number that is out of its range. A test holds it against the library.
use crate::{number, whole};
use tiglostrema::Glass;

/// The least and the most that a number may be.
#[derive(Clone, Copy, Debug, PartialEq)]
pub struct Range {
    pub least: f64,
    pub most: f64,
}

const fn range(least: f64, most: f64) -> Range {
    Range { least, most }
}

const PLACE: Range = range(-16384.0, 16384.0);
const SIDE: Range = range(0.0, 16384.0);
const RADIUS: Range = range(0.0, 8192.0);
const RIM: Range = range(0.0, 256.0);
const GLASS_BLUR: Range = range(0.0, 64.0);
const SATURATION: Range = range(0.0, 8.0);
const BRIGHTNESS: Range = range(-1.0, 1.0);
const FRAME_SIDE: Range = range(0.0, 4096.0);
const BYTE: Range = range(0.0, 255.0);
const PART: Range = range(0.0, 1.0);
const SOURCE: Range = range(0.0, u32::MAX as f64);

/// Every entry of a table that is read, but the last, which has to be 0: as much as the bezel allows. The widest
/// allows 409.6, so that 1024, to which the entries of all tables go, is beyond each of them.
pub fn entry(bezel: f32) -> Range {
    range(0.0, Glass::most_displacement(bezel).into())
}

/// The ranges of a field's numbers, in their order. A gradient's are found by the name of its form; a table's depend on
/// the bezel, as [`entry`] says.
pub fn of(kind: &str, field: &str) -> &'static [Range] {
    match (kind, field) {
        ("frame", "rect") => &[SIDE, SIDE, FRAME_SIDE, FRAME_SIDE],
        ("frame", "border") => &[FRAME_SIDE],
        (_, "rect") => &[PLACE, PLACE, SIDE, SIDE],
        (_, "clip") => &[PLACE; 4],
        (_, "radius") => &[RADIUS],
        ("fill", "vertical") => &[PLACE; 2],
        ("fill", "linear") => &[PLACE; 4],
        ("fill", "radial") => &[PLACE, PLACE, SIDE],
        ("stroke", "width") | ("shadow", "blur") | ("glass", "bezel") => &[RIM],
        ("glass", "blur") => &[GLASS_BLUR],
        ("glass", "saturation") => &[SATURATION],
        ("glass", "brightness") => &[BRIGHTNESS],
        ("glass", "spec") => &[PART],
        ("copy", "at") => &[PLACE; 2],
        ("copy", "alpha" | "dim") => &[BYTE],
        ("scaled" | "genie", "alpha") => &[PART],
        ("genie", "t") => &[PART],
        ("genie", "target") => &[PLACE; 2],
        ("copy" | "scaled" | "genie", "source") => &[SOURCE],
        _ => &[],
    }
}

/// The numbers of a field: their names, and what each may be.
pub struct Numbers<'a> {
    field: &'a str,
    usage: &'a str,
    ranges: &'static [Range],
}

impl<'a> Numbers<'a> {
    /// Those of a field whose values `usage` names, behind the field's own name.
    pub fn of(kind: &str, field: &'a str, usage: &'a str) -> Numbers<'a> {
        Numbers {
            field,
            usage,
            ranges: of(kind, field),
        }
    }

    /// The float at a place of the field.
    pub fn float(&self, place: usize, word: &str) -> Result<f32, String> {
        let Range { least, most } = self.ranges[place];
        let expected = || format!("expected a number from {least} to {most}, found `{word}`");
        let value = number::read(word).ok_or_else(expected)?;
        if (least..=most).contains(&value.into()) {
            return Ok(value);
        }
        let (field, name) = (self.field, self.name(place));
        Err(format!(
            "`{field}` takes {least} to {most}{name}, found `{word}`"
        ))
    }

    /// The whole number at a place of the field.
    pub fn whole(&self, place: usize, word: &str) -> Result<i64, String> {
        let Range { least, most } = self.ranges[place];
        whole::read(word, least as i64, most as i64)
    }

    /// ` as its WIDTH`, where the field has more numbers than one.
    fn name(&self, place: usize) -> String {
        let name = self.usage.split_whitespace().nth(place + 1);
        match name {
            Some(name) if self.ranges.len() > 1 => format!(" as its {name}"),
            _ => String::new(),
        }
    }
}

#[cfg(test)]
mod tests {
    use super::*;
    use crate::values::{Field, Value};
    use crate::{describe, make, parse, values};
    use tiglostrema::raw::{self, BODY_LEN};
    use tiglostrema::{Cause, Layer, DISPLACEMENT_LEN};

    /// A layer of each kind and paint. The glass has a bezel, so that its table is read.
    const SAMPLES: &str = "
        layer 1 fill; rect 1 2 3 4; colour white
        layer 2 fill; rect 1 2 3 4; gradient vertical 1 2 white black
        layer 3 fill; rect 1 2 3 4; gradient linear 1 2 3 4 white black
        layer 4 fill; rect 1 2 3 4; gradient radial 1 2 3 white black
        layer 5 stroke; rect 1 2 3 4; colour white
        layer 6 shadow; rect 1 2 3 4; blur 5
        layer 7 glass; rect 1 2 3 4; bezel 9; table linear 8
        layer 8 copy; source 1; at 2 3
        layer 9 scaled; source 1; rect 1 2 3 4
        layer 10 genie; source 1; rect 1 2 3 4; target 5 6; t 0.5
        layer 11 frame; rect 1 2 3 4; tag usb";

    /// Where the numbers of a field stand in a block, as the block's layout says.
    fn offset(kind: &str, field: &str) -> usize {
        match (kind, field) {
            (_, "source") => 4,
            ("frame", "rect") | (_, "at") => 8,
            (_, "border") => 24,
            (_, "rect") => 32,
            (_, "radius") => 48,
            (_, "blur") => 52,
            (_, "saturation") => 60,
            (_, "brightness") => 64,
            (_, "bezel") => 68,
            (_, "spec") => 72,
            ("copy", "alpha") => 76,
            (_, "dim") => 80,
            (_, "alpha") => 84,
            (_, "t") => 88,
            (_, "target") => 92,
            (_, "width") => 100,
            (_, "table") => 104,
            (_, "clip") => 236,
            (_, "vertical" | "linear" | "radial") => 256,
            _ => panic!("{kind} {field}"),
        }
    }

    /// A number of a field: its place among the block's bytes and among the field's words.
    struct Place {
        at: usize,
        word: usize,
        float: bool,
        range: Range,
        /// Why the library refuses a float that is above it.
        above: Cause,
    }

    /// The ranges of a field's numbers.
    fn ranges(layer: &Layer, name: &str) -> Vec<Range> {
        match (layer, name) {
            (Layer::Glass(glass), "table") => {
                let mut all = vec![entry(glass.bezel); DISPLACEMENT_LEN];
                all[DISPLACEMENT_LEN - 1] = range(0.0, 0.0);
                all
            }
            _ => of(describe::kind(layer), name).to_vec(),
        }
    }

    /// The numbers of a field, each with its range.
    fn places(layer: &Layer, field: &Field) -> Vec<Place> {
        let kind = describe::kind(layer);
        let (name, skipped, count, float) = match &field.value {
            Value::Whole(numbers) => (field.name, 1, numbers.len(), false),
            Value::Floats(numbers) | Value::Table(numbers) => (field.name, 1, numbers.len(), true),
            Value::Gradient(form, numbers, _) => (*form, 2, numbers.len(), true),
            Value::Colour(_) | Value::Flag(_) | Value::Tag(_) => return Vec::new(),
        };
        let ranges = ranges(layer, name);
        assert_eq!(ranges.len(), count, "{kind} {name}");
        let place = |(i, range): (usize, Range)| Place {
            at: offset(kind, name) + 4 * i,
            word: skipped + i,
            float,
            range,
            above: match name == "table" && i < DISPLACEMENT_LEN - 1 {
                true => Cause::Bend,
                false => Cause::FloatRange,
            },
        };
        ranges.into_iter().enumerate().map(place).collect()
    }

    /// What the library says of a block whose word at an offset is another.
    fn verdict(block: &[u8], at: usize, word: [u8; 4]) -> Result<(), Cause> {
        let mut body: [u8; BODY_LEN] = block[..BODY_LEN].try_into().unwrap();
        body[at..at + 4].copy_from_slice(&word);
        let added = raw::add(&mut [0; 512], 0, &body);
        added.map(|_| ()).map_err(|refusal| refusal.cause())
    }

    /// What a reader of the text says of a layer with another word in a field: the places that it points at.
    fn marks(layer: &Layer, field: &Field, word: usize, value: &str) -> Vec<(usize, usize)> {
        let mut text = format!("layer 1 {}\n", describe::kind(layer));
        let mut column = 0;
        for other in values::of(layer) {
            let words = other.words();
            let mut words: Vec<&str> = words.split(' ').collect();
            if other == *field {
                words[word] = value;
                column = words[..word].join(" ").len() + 2;
            }
            text.push_str(&format!("{}\n", words.join(" ")));
        }
        let problems = parse(&text).problems;
        let here = |p: &crate::Problem| (p.column.abs_diff(column), p.width.abs_diff(value.len()));
        problems.iter().map(here).collect()
    }

    fn floats(block: &[u8], layer: &Layer, field: &Field, place: &Place) {
        let Range { least, most } = place.range;
        let (least, most) = (least as f32, most as f32);
        for value in [least, most] {
            let said = verdict(block, place.at, value.to_le_bytes());
            assert_eq!(said, Ok(()), "{field:?} {value}");
            let marks = marks(layer, field, place.word, &number::show(value));
            assert_eq!(marks, [], "{field:?} {value}");
        }
        for (value, cause) in [
            (least.next_down(), Cause::FloatRange),
            (most.next_up(), place.above),
        ] {
            let said = verdict(block, place.at, value.to_le_bytes());
            assert_eq!(said, Err(cause), "{field:?} {value}");
            let marks = marks(layer, field, place.word, &number::show(value));
            assert_eq!(marks, [(0, 0)], "{field:?} {value}");
        }
    }

    fn integers(block: &[u8], layer: &Layer, field: &Field, place: &Place) {
        let Range { least, most } = place.range;
        let (least, most) = (least as i64, most as i64);
        for value in [least, most] {
            let said = verdict(block, place.at, (value as u32).to_le_bytes());
            assert_eq!(said, Ok(()), "{field:?} {value}");
            let marks = marks(layer, field, place.word, &value.to_string());
            assert_eq!(marks, [], "{field:?} {value}");
        }
        for value in [least - 1, most + 1] {
            // Beyond a source's number there is no other in four bytes.
            if field.name != "source" {
                let said = verdict(block, place.at, (value as u32).to_le_bytes());
                assert_eq!(said, Err(Cause::IntegerRange), "{field:?} {value}");
            }
            let marks = marks(layer, field, place.word, &value.to_string());
            assert_eq!(marks, [(0, 0)], "{field:?} {value}");
        }
    }

    #[test]
    fn the_table_is_the_librarys() {
        let rundown = make(SAMPLES).unwrap().rundown;
        let mut numbers = 0;
        for ((_, layer), block) in rundown.iter().zip(rundown.as_bytes().chunks_exact(512)) {
            for field in values::of(&layer) {
                for place in places(&layer, &field) {
                    match place.float {
                        true => floats(block, &layer, &field, &place),
                        false => integers(block, &layer, &field, &place),
                    }
                    numbers += 1;
                }
            }
        }
        assert_eq!(numbers, 155);
    }

    #[test]
    fn a_table_that_is_not_read_may_hold_anything() {
        let text = "layer 1 glass; rect 0 0 9 9; bezel 0.5; table 0x7FC00001 -1 9999";
        let text = format!("{text}{}", " 7".repeat(30));
        assert_eq!(make(&text).map(|made| made.rundown.len()), Ok(1));
        let text = text.replace("bezel 0.5", "bezel 0.6");
        let said: Vec<String> = make(&text)
            .unwrap_err()
            .into_iter()
            .map(|p| p.message)
            .collect();
        assert_eq!(
            said,
            [
                "`table` takes 0 to 0.96000004 with a bezel of 0.6, found `0x7FC00001` as entry 0 of block 0",
                "`table` takes 0 to 0.96000004 with a bezel of 0.6, found `-1` as entry 1 of block 0",
                "`table` ends with 0, found `7`",
                "`table` takes 0 to 0.96000004 with a bezel of 0.6, found `9999` as entry 2 of block 0; \
                 29 more entries are too large",
            ]
        );
    }

    #[test]
    fn what_a_bezel_allows_passes_when_it_is_typed() {
        let panel = |bezel: f32, from: f32| {
            let (bezel, from) = (number::show(bezel), number::show(from));
            format!("layer 1 glass; rect 0 0 9 9; bezel {bezel}; table linear {from}")
        };
        let (first, last) = (0.5_f32.to_bits() + 1, 256.0_f32.to_bits());
        // Steps of a large odd number meet mantissas of all sorts in each of the nine exponents.
        let steps = (first..=last).step_by(30_011);
        for bits in steps.chain([0.9_f32.to_bits(), last]) {
            let bezel = f32::from_bits(bits);
            let most = entry(bezel).most as f32;
            let made = make(&panel(bezel, most)).unwrap().rundown;
            let above = most.next_up();
            let said = verdict(made.as_bytes(), 104, above.to_le_bytes());
            assert_eq!(said, Err(Cause::Bend), "{bezel}");
            let text = panel(bezel, above);
            let problems = make(&text).unwrap_err();
            assert_eq!(problems.len(), 1, "{problems:?}");
            let (most, above) = (number::show(most), number::show(above));
            assert_eq!(problems[0].column + above.len(), text.len() + 1);
            let words = format!(
                "`table` takes 0 to {most} with a bezel of {}, found `{above}` as entry 0 of block 0",
                number::show(bezel)
            );
            assert_eq!(problems[0].message, words);
        }
    }
}
