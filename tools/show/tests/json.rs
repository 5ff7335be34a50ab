//! The JSON of a rundown is right JSON, and has every field of every layer.
use show::boxes::Sizes;
use show::values::{self, Value};
use show::{dearest_json, describe, forecast_json, json, make, steps_json};
use std::collections::BTreeMap;
use tiglostrema::raw::BLOCK_LEN;
use tiglostrema::{dearest, Color, Forecast, Layer, Rundown, SourceId};

const EVERY_KIND: &str = "
    layer 20 fill; rect -0 2.5 3 1e-45; colour #01020304; radius -0
    layer 2 fill; rect 1 2 3 4; gradient vertical 1 7.038531e-26 white black
    layer 13 fill; rect 1 2 3 4; gradient linear 1 2 3 0.1 white black/7
    layer 4 fill; rect 1 2 3 4; gradient radial 1 2 3 white black; clip -5 0 5 9
    layer 5 stroke; rect 1 2 3 4; colour white
    layer 6 shadow; rect 1 2 3 4; blur 5; skip_inside yes
    layer 7 glass; rect 1 2 3 4; bezel 9; table round 8; saturation 1.8
    layer 8 copy; source 1; at 2 -3
    layer 9 scaled; source 4294967295; rect 1 2 3 4
    layer 10 genie; source 1; rect 1 2 3 4; target 5 6; t 0.5
    layer 11 frame; rect 1 2 3 4; tag usb; xray yes; clip 1 1 2 2";

/// A value of JSON. Of a number the word is kept, since it matters how it is written.
#[derive(Debug, PartialEq)]
enum Json {
    Null,
    Bool(bool),
    Number(String),
    Text(String),
    Array(Vec<Json>),
    Object(BTreeMap<String, Json>),
}

/// A reader of JSON as it is defined, but for escapes in strings, of which none is needed here.
struct Reader<'a>(&'a str);

impl Reader<'_> {
    fn space(&mut self) {
        self.0 = self.0.trim_start_matches([' ', '\n', '\r', '\t']);
    }

    /// Whether this stands next; then it is behind us.
    fn takes(&mut self, word: &str) -> bool {
        self.space();
        let rest = self.0.strip_prefix(word);
        self.0 = rest.unwrap_or(self.0);
        rest.is_some()
    }

    fn expect(&mut self, word: &str) {
        assert!(self.takes(word), "expected {word} before {}", self.0);
    }

    fn value(&mut self) -> Json {
        self.space();
        match self.0.as_bytes()[0] {
            b'{' => self.object(),
            b'[' => self.array(),
            b'"' => Json::Text(self.text()),
            _ if self.takes("null") => Json::Null,
            _ if self.takes("true") => Json::Bool(true),
            _ if self.takes("false") => Json::Bool(false),
            _ => self.number(),
        }
    }

    fn array(&mut self) -> Json {
        self.expect("[");
        let mut all = Vec::new();
        while !self.takes("]") {
            if !all.is_empty() {
                self.expect(",");
            }
            all.push(self.value());
        }
        Json::Array(all)
    }

    fn object(&mut self) -> Json {
        self.expect("{");
        let mut all = BTreeMap::new();
        while !self.takes("}") {
            if !all.is_empty() {
                self.expect(",");
            }
            self.space();
            let name = self.text();
            self.expect(":");
            let value = self.value();
            assert!(all.insert(name, value).is_none(), "a name twice");
        }
        Json::Object(all)
    }

    fn text(&mut self) -> String {
        self.expect("\"");
        let (text, rest) = self.0.split_once('"').expect("the end of a string");
        self.0 = rest;
        let plain = |c: char| c != '\\' && !c.is_control();
        assert!(text.chars().all(plain), "{text}");
        text.to_owned()
    }

    /// `-`, digits without a 0 before them, a fraction, an exponent.
    fn number(&mut self) -> Json {
        let end = self.0.find([',', ']', '}', '\n', ' ']).unwrap();
        let (word, rest) = self.0.split_at(end);
        self.0 = rest;
        let (mantissa, exponent) = word.split_once('e').unwrap_or((word, "0"));
        let (whole, fraction) = mantissa.split_once('.').unwrap_or((mantissa, "0"));
        let digits = |s: &str| !s.is_empty() && s.bytes().all(|b| b.is_ascii_digit());
        let whole = whole.strip_prefix('-').unwrap_or(whole);
        let exponent = exponent.strip_prefix('-').unwrap_or(exponent);
        assert!(
            digits(whole) && digits(fraction) && digits(exponent),
            "{word}"
        );
        assert!(whole == "0" || !whole.starts_with('0'), "{word}");
        Json::Number(word.to_owned())
    }
}

fn object(json: Json) -> BTreeMap<String, Json> {
    match json {
        Json::Object(members) => members,
        other => panic!("no object: {other:?}"),
    }
}

/// The one value of a text.
fn value(text: &str) -> Json {
    let mut reader = Reader(text);
    let value = reader.value();
    assert_eq!(reader.0, "\n");
    value
}

fn objects(json: Json) -> Vec<BTreeMap<String, Json>> {
    match json {
        Json::Array(layers) => layers.into_iter().map(object).collect(),
        other => panic!("no array: {other:?}"),
    }
}

fn read(text: &str) -> Vec<BTreeMap<String, Json>> {
    objects(value(text))
}

/// A float as a reader with doubles gets it.
fn float(json: &Json) -> u32 {
    match json {
        Json::Number(word) => (word.parse::<f64>().unwrap() as f32).to_bits(),
        Json::Text(bits) => u32::from_str_radix(bits.strip_prefix("0x").unwrap(), 16).unwrap(),
        other => panic!("{other:?}"),
    }
}

fn floats(json: &Json) -> Vec<u32> {
    match json {
        Json::Array(all) => all.iter().map(float).collect(),
        one => vec![float(one)],
    }
}

fn integers(json: &Json) -> Vec<i64> {
    match json {
        Json::Array(all) => all.iter().flat_map(integers).collect(),
        Json::Number(word) => vec![word.parse().unwrap()],
        other => panic!("{other:?}"),
    }
}

fn colour(json: &Json) -> Color {
    match json {
        Json::Text(word) => show::colour::parse(word).unwrap(),
        other => panic!("{other:?}"),
    }
}

/// Whether a field holds what its JSON says.
fn holds(value: &Value, json: &Json) -> bool {
    let bits = |numbers: &[f32]| -> Vec<u32> { numbers.iter().map(|n| n.to_bits()).collect() };
    match (value, json) {
        (Value::Whole(numbers), json) => integers(json) == *numbers,
        (Value::Floats(numbers) | Value::Table(numbers), json) => floats(json) == bits(numbers),
        (Value::Colour(c), json) => colour(json) == *c,
        (Value::Flag(flag), json) => *json == Json::Bool(*flag),
        (Value::Tag(name), json) => *json == Json::Text((*name).to_owned()),
        (Value::Gradient(form, numbers, colours), Json::Object(members)) => {
            let Json::Array(said) = &members["colours"] else {
                return false;
            };
            members["form"] == Json::Text((*form).to_owned())
                && floats(&members["numbers"]) == bits(numbers)
                && said.iter().map(colour).eq(colours.iter().copied())
                && members.len() == 3
        }
        _ => false,
    }
}

fn compare(members: &BTreeMap<String, Json>, layer: &Layer) {
    assert_eq!(
        members["kind"],
        Json::Text(describe::kind(layer).to_owned())
    );
    let fields = values::of(layer);
    for field in &fields {
        let json = &members[field.name];
        assert!(holds(&field.value, json), "{field:?} {json:?}");
    }
    let source = layer.source().is_none();
    assert_eq!(members["source"] == Json::Null, source);
    let name = match layer.source() {
        Some(number) if number.index() == 0 => Json::Text("studio".to_owned()),
        _ => Json::Null,
    };
    assert_eq!(members["source_name"], name);
    // Priority, block, kind, name and box stand besides, and a source for the kinds that have none.
    assert_eq!(members.len(), fields.len() + 5 + usize::from(source));
}

fn test(rundown: &Rundown, sizes: &Sizes<'_>) {
    let objects = read(&json(rundown, sizes, &["studio".to_owned()]));
    assert_eq!(objects.len(), rundown.len());
    let blocks: Vec<(u16, Layer)> = rundown.iter().collect();
    for (members, (priority, _)) in objects.iter().zip(rundown.in_playing_order()) {
        assert_eq!(integers(&members["priority"]), [i64::from(priority)]);
        let block = integers(&members["block"])[0] as usize;
        assert_eq!(blocks[block].0, priority);
        compare(members, &blocks[block].1);
    }
}

/// The rundown with its blocks the other way round, so that they descend.
fn turned(rundown: &Rundown) -> Rundown {
    let blocks: Vec<&[u8]> = rundown.as_bytes().rchunks(BLOCK_LEN).collect();
    Rundown::from_bytes(&blocks.concat()).unwrap()
}

#[test]
fn every_kind() {
    let sizes = Sizes {
        canvas: Some((64, 40)),
        sources: &[(8, 8), (9, 9)],
    };
    let every_kind = make(EVERY_KIND).unwrap().rundown;
    test(&every_kind, &sizes);
    test(&turned(&every_kind), &sizes);
    test(
        &make(include_str!("../../../showcase/bulletin.txt"))
            .unwrap()
            .rundown,
        &sizes,
    );
    test(&Rundown::new(), &sizes);
}

#[test]
fn a_table_that_is_not_read() {
    let entries = " 0x7FC00001 -0 0xFF800000".repeat(11);
    let text = format!("layer 1 glass; rect 0 0 9 9; table{entries}");
    let sizes = Sizes {
        canvas: None,
        sources: &[],
    };
    test(&make(&text).unwrap().rundown, &sizes);
}

#[test]
fn boxes() {
    let rundown = make(EVERY_KIND).unwrap().rundown;
    let at = |sources: &[(u32, u32)], priority: usize| {
        let sizes = Sizes {
            canvas: Some((64, 40)),
            sources,
        };
        let objects = read(&json(&rundown, &sizes, &[]));
        let wanted = |o: &&BTreeMap<String, Json>| integers(&o["priority"]) == [priority as i64];
        let found = objects.iter().find(wanted).unwrap();
        match &found["box"] {
            Json::Object(sides) => {
                let side = |name| integers(&sides[name])[0];
                Some(["x", "y", "width", "height"].map(side))
            }
            other => {
                assert_eq!(*other, Json::Null);
                None
            }
        }
    };
    assert_eq!(at(&[(8, 8)], 8), None);
    assert_eq!(at(&[(8, 8), (9, 9)], 8), Some([2, 0, 9, 6]));
    assert_eq!(at(&[], 4), Some([1, 2, 3, 4]));
    // Its clip ends where the canvas begins: the box is empty.
    let left = make("layer 1 fill; rect 0 0 9 9; colour red; clip -9 0 0 9").unwrap();
    let sizes = Sizes {
        canvas: Some((64, 40)),
        sources: &[],
    };
    let Json::Object(sides) = &read(&json(&left.rundown, &sizes, &[]))[0]["box"] else {
        panic!("a box");
    };
    assert_eq!(sides["width"], Json::Number("0".to_owned()));
}

#[test]
fn forecasts() {
    let text = "layer 9 glass; rect 4 0 3 2; blur 0\nlayer 1 copy; source 0; at 8 0";
    for (text, layers) in [(text, 2), ("", 0)] {
        let rundown = turned(&make(text).unwrap().rundown);
        let forecast = Forecast::of_bytes(rundown.as_bytes(), 8, 2, &[2, 2]).unwrap();
        let mut members = object(value(&forecast_json(&rundown, &forecast)));
        let numbers = ["layers", "scratch", "cells"].map(|name| integers(&members[name])[0]);
        let scratch = forecast.scratch() as i64;
        assert_eq!(numbers, [layers, scratch, scratch / 3]);
        let blocks = objects(members.remove("blocks").unwrap());
        assert_eq!((members.len(), blocks.len()), (3, layers as usize));
        let sides = |mut block: BTreeMap<String, Json>| {
            let sides = object(block.remove("box").unwrap());
            let numbers = ["block", "priority"].map(|name| integers(&block[name])[0]);
            let side = |name| integers(&sides[name])[0];
            (numbers, ["x", "y", "width", "height"].map(side))
        };
        // The copy lies beyond the canvas.
        let expected = [([0, 9], [4, 0, 3, 2]), ([1, 1], [0, 0, 0, 0])];
        assert!(blocks
            .into_iter()
            .map(sides)
            .eq(expected.into_iter().take(layers as usize)));
    }
}

#[test]
fn dearest_panels() {
    for blur in [0.0, -0.0, f32::from_bits(1), 2.5, 7.038_531e-26, 64.0] {
        let panel = dearest(1920, 1080, blur).unwrap();
        let members = object(value(&dearest_json((1920, 1080), &panel)));
        let numbers = ["width", "height", "scratch"].map(|name| integers(&members[name])[0]);
        assert_eq!(numbers, [1920, 1080, panel.scratch() as i64]);
        assert_eq!(float(&members["blur"]), blur.to_bits());
        assert_eq!(members.len(), 4);
    }
}

#[test]
fn steps() {
    let rundown = make(EVERY_KIND).unwrap().rundown;
    // Before each step as many sources are fresh as its number says, by twos.
    let fresh = |step: usize| (0..step as u32 / 2).map(SourceId::new).collect();
    let layers = rundown.in_playing_order().enumerate();
    let steps: Vec<_> = layers.map(|(i, (p, layer))| (p, layer, fresh(i))).collect();
    let mut members = object(value(&steps_json(&steps)));
    let objects = objects(members.remove("steps").unwrap());
    assert_eq!(integers(&members["layers"]), [11]);
    assert_eq!((members.len(), objects.len()), (1, 11));
    for (object, (priority, layer, fresh)) in objects.iter().zip(&steps) {
        assert_eq!(integers(&object["priority"]), [i64::from(*priority)]);
        assert_eq!(object["kind"], Json::Text(describe::kind(layer).to_owned()));
        let source = layer.source().map(|source| i64::from(source.number()));
        match source {
            Some(number) => assert_eq!(integers(&object["source"]), [number]),
            None => assert_eq!(object["source"], Json::Null),
        }
        let fresh = fresh.iter().map(|source| i64::from(source.number()));
        assert!(fresh.eq(integers(&object["fresh"])));
        assert_eq!(object.len(), 4);
    }
    assert_eq!(steps_json(&[]), "{\"layers\": 0, \"steps\": []}\n");
}
