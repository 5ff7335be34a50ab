//! The fields of each kind, with their defaults.
use crate::bend::displacement;
use crate::fields::Fields;
use crate::paint::paint;
use crate::statement::Word;
use crate::suggest::did_you_mean;
use tiglostrema::{
    Color, Fill, Frame, Genie, Glass, IRect, Layer, Point, Rect, ScaledCopy, SecurityTag, Shadow,
    StraightCopy, Stroke, MAX_SOURCES,
};

/// The kinds' names, in the order of their numbers.
pub const KINDS: [&str; 8] = [
    "fill", "stroke", "shadow", "glass", "copy", "scaled", "genie", "frame",
];

/// The tags' names, in the order of their numbers.
pub const TAGS: [&str; 7] = [
    "admin",
    "vault",
    "personal",
    "work",
    "usb",
    "untrusted",
    "disposable",
];

const RECT: &str = "rect X Y WIDTH HEIGHT";

/// The layer of a kind; nothing where there is no such kind. Problems are left in the fields.
pub fn read(kind: &str, f: &mut Fields<'_>, names: &[&str]) -> Option<Layer> {
    Some(match kind {
        "fill" => Fill::new(rect(f), paint(f))
            .with_radius(radius(f))
            .with_clip(clip(f))
            .into(),
        "stroke" => Stroke::new(
            rect(f),
            f.float("width", "width W", 1.0),
            f.colour("colour", None),
        )
        .with_radius(radius(f))
        .with_clip(clip(f))
        .into(),
        "shadow" => shadow(f).into(),
        "glass" => glass(f).into(),
        "copy" => copy(f, names).into(),
        "scaled" => ScaledCopy::new(source(f, names), rect(f))
            .with_radius(radius(f))
            .with_alpha(f.float("alpha", "alpha A", 1.0))
            .with_clip(clip(f))
            .into(),
        "genie" => genie(f, names).into(),
        "frame" => frame(f).into(),
        _ => return None,
    })
}

fn shadow(f: &mut Fields<'_>) -> Shadow {
    let [blur] = f.floats("blur", "blur RADIUS", None);
    let colour = f.colour("colour", Some(Color::BLACK.with_alpha(128)));
    Shadow::new(rect(f), blur, colour)
        .with_radius(radius(f))
        .with_skip_inside(f.flag("skip_inside"))
        .with_clip(clip(f))
}

fn glass(f: &mut Fields<'_>) -> Glass {
    let blur = f.float("blur", "blur RADIUS", 10.0);
    let bezel = f.float("bezel", "bezel WIDTH", 0.0);
    Glass::new(rect(f), blur)
        .with_radius(radius(f))
        .with_tint(f.colour("tint", Some(Color::WHITE.with_alpha(40))))
        .with_saturation(f.float("saturation", "saturation S", 1.5))
        .with_brightness(f.float("brightness", "brightness B", 0.0))
        .with_bezel(bezel, displacement(f, bezel))
        .with_spec(f.float("spec", "spec S", 0.0))
        .with_clip(clip(f))
}

fn copy(f: &mut Fields<'_>, names: &[&str]) -> StraightCopy {
    let [x, y] = f.integers("at", "at X Y", None);
    StraightCopy::new(source(f, names), x, y)
        .with_radius(radius(f))
        .with_alpha(f.integers("alpha", "alpha A", Some([255]))[0])
        .with_dim(f.integers("dim", "dim D", Some([0]))[0])
        .with_clip(clip(f))
}

fn genie(f: &mut Fields<'_>, names: &[&str]) -> Genie {
    let [x, y] = f.floats("target", "target X Y", None);
    let [t] = f.floats("t", "t T", None);
    Genie::new(source(f, names), rect(f), Point::new(x, y), t)
        .with_alpha(f.float("alpha", "alpha A", 1.0))
        .with_clip(clip(f))
}

fn frame(f: &mut Fields<'_>) -> Frame {
    let [x, y, w, h] = f.integers("rect", RECT, None);
    let mut frame = Frame::new(x, y, w, h, tag(f))
        .with_border(f.integers("border", "border WIDTH", Some([4]))[0])
        .with_tint(f.flag("tint"))
        .with_xray(f.flag("xray"));
    // A frame has a clip and ignores it; a text may give one, so that it can say all that a block holds.
    frame.clip = clip(f);
    frame
}

fn rect(f: &mut Fields<'_>) -> Rect {
    let [x, y, w, h] = f.floats("rect", RECT, None);
    Rect::new(x, y, w, h)
}

fn radius(f: &mut Fields<'_>) -> f32 {
    f.float("radius", "radius R", 0.0)
}

fn clip(f: &mut Fields<'_>) -> IRect {
    let all = IRect::EVERYWHERE;
    let [x0, y0, x1, y1] = f.integers(
        "clip",
        "clip X0 Y0 X1 Y1",
        Some([all.x0, all.y0, all.x1, all.y1]),
    );
    IRect::new(x0, y0, x1, y1)
}

/// A source, by its number or by one of the names at the text's beginning.
fn source(f: &mut Fields<'_>, names: &[&str]) -> u32 {
    let usage = "source NUMBER";
    let Some(field) = f.take("source") else {
        f.missing(usage);
        return 0;
    };
    let [word] = field.values[..] else {
        f.problem(field.name, format!("expected `{usage}`"));
        return 0;
    };
    if let Some(number) = names.iter().position(|name| *name == word.text) {
        return number as u32;
    }
    match f.numbers("source", usage).whole(0, word.text) {
        Ok(number) => {
            let number = number as u32;
            f.warn_if(word, unlikely(number, names));
            number
        }
        Err(_) => {
            f.problem(word, no_source(word.text, names));
            0
        }
    }
}

/// What is wrong with a word that is neither a source's number nor its name.
fn no_source(word: &str, names: &[&str]) -> String {
    let near = did_you_mean(word, names);
    let or = if names.is_empty() {
        String::new()
    } else {
        let more = if names.len() > MAX_SOURCES {
            ", …"
        } else {
            ""
        };
        let some = &names[..names.len().min(MAX_SOURCES)];
        format!(", or one of {}{more}", some.join(", "))
    };
    let last = MAX_SOURCES - 1;
    format!("expected a source's number, 0 to {last}{or}, found `{word}`{near}")
}

/// What is odd about a source's number: no play has it, or the show has names and none for it.
fn unlikely(number: u32, names: &[&str]) -> Option<String> {
    let place = number as usize;
    if place >= MAX_SOURCES {
        let last = MAX_SOURCES - 1;
        return Some(format!(
            "no play has a source {number}: they are 0 to {last}"
        ));
    }
    let given = match names.len() {
        0 => return None,
        1 => "1 name is given, for source 0".to_owned(),
        n => format!("{n} names are given, for sources 0 to {}", n - 1),
    };
    (place >= names.len()).then(|| format!("source {number} has no name: {given}"))
}

fn tag(f: &mut Fields<'_>) -> SecurityTag {
    let all = || TAGS.join(", ");
    let Some(field) = f.take("tag") else {
        f.missing("tag NAME");
        return SecurityTag::ObsidianAdmin;
    };
    let named = |w: &&Word| TAGS.iter().position(|t| *t == w.text);
    let one = field.values.first().filter(|_| field.values.len() == 1);
    let number = one.as_ref().and_then(named);
    if let Some(tag) = number.and_then(|n| SecurityTag::from_number(n as u8)) {
        return tag;
    }
    let near = one.map_or(String::new(), |w| did_you_mean(w.text, &TAGS));
    let words = format!("expected a tag, one of {}{near}", all());
    f.problem(*one.unwrap_or(&field.name), words);
    SecurityTag::ObsidianAdmin
}

#[cfg(test)]
mod tests {
    use super::*;
    use crate::{parse, Problem};
    use tiglostrema::Paint;

    fn one(text: &str) -> Layer {
        let show = parse(text);
        assert_eq!(show.problems, []);
        show.entries[0].layer
    }

    fn said(text: &str) -> Vec<String> {
        parse(text)
            .problems
            .into_iter()
            .map(|p| p.message)
            .collect()
    }

    #[test]
    fn defaults() {
        let rect = Rect::new(1.0, 2.0, 3.0, 4.0);
        assert_eq!(
            one("layer 1 glass; rect 1 2 3 4"),
            Glass::new(rect, 10.0)
                .with_tint(Color::rgba(255, 255, 255, 40))
                .with_saturation(1.5)
                .into()
        );
        assert_eq!(
            one("layer 1 scaled; source 3; rect 1 2 3 4"),
            ScaledCopy::new(3, rect).into()
        );
        assert_eq!(
            one("layer 1 frame; rect 1 2 3 4; tag vault"),
            Frame::new(1, 2, 3, 4, SecurityTag::PurpleVault).into()
        );
        assert_eq!(
            one("layer 1 shadow; rect 1 2 3 4; blur 5"),
            Shadow::new(rect, 5.0, Color::rgba(0, 0, 0, 128)).into()
        );
    }

    #[test]
    fn every_field() {
        let rect = Rect::new(1.0, 2.0, 3.0, 4.0);
        let clip = IRect::new(-1, 0, 5, 6);
        assert_eq!(
            one("layer 1 stroke; rect 1 2 3 4; width 2; colour #01020304; radius 7; clip -1 0 5 6"),
            Stroke::new(rect, 2.0, Color::rgba(1, 2, 3, 4))
                .with_radius(7.0)
                .with_clip(clip)
                .into()
        );
        assert_eq!(
            one("layer 1 copy; source 2; at -3 4; radius 5; alpha 6; dim 7"),
            StraightCopy::new(2, -3, 4)
                .with_radius(5.0)
                .with_alpha(6)
                .with_dim(7)
                .into()
        );
        assert_eq!(
            one("layer 1 genie; source 2; rect 1 2 3 4; target 5 6; t 0.5; alpha 0.25"),
            Genie::new(2, rect, Point::new(5.0, 6.0), 0.5)
                .with_alpha(0.25)
                .into()
        );
        assert_eq!(
            one("layer 1 frame; rect 1 2 3 4; tag work; border 9; tint yes; xray yes"),
            Frame::new(1, 2, 3, 4, SecurityTag::BlueWork)
                .with_border(9)
                .with_tint(true)
                .with_xray(true)
                .into()
        );
    }

    #[test]
    fn gradients() {
        let paint = |text: &str| match one(&format!(
            "layer 1 fill; rect 0 0 9 9; gradient {text} white black"
        )) {
            Layer::Fill(fill) => fill.paint,
            other => panic!("{other:?}"),
        };
        let (c0, c1) = (Color::WHITE, Color::BLACK);
        assert_eq!(
            paint("vertical 1 2"),
            Paint::VGrad {
                y0: 1.0,
                y1: 2.0,
                c0,
                c1
            }
        );
        let (p0, p1) = (Point::new(1.0, 2.0), Point::new(3.0, 4.0));
        assert_eq!(paint("linear 1 2 3 4"), Paint::Linear { p0, p1, c0, c1 });
        assert_eq!(
            paint("radial 1 2 3"),
            Paint::Radial {
                c: p0,
                r: 3.0,
                c0,
                c1
            }
        );
    }

    #[test]
    fn tables() {
        let table = |text: &str| match one(&format!(
            "layer 1 glass; rect 0 0 9 9; bezel 20; table {text}"
        )) {
            Layer::Glass(glass) => glass.displacement,
            other => panic!("{other:?}"),
        };
        let numbers: Vec<String> = (0..33).map(|n| (32 - n).to_string()).collect();
        assert_eq!(table(&numbers.join(" ")), table("linear 32"));
        assert_eq!(table("round 8")[16], 2.0);
        assert_eq!(table("round 8")[32], 0.0);
    }

    #[test]
    fn warnings_of_sources() {
        let said = |text: &str| -> Vec<String> {
            let show = parse(text);
            assert_eq!(show.problems, []);
            let said = |p: &Problem| format!("{}:{}: {}", p.line, p.column, p.message);
            show.warnings.iter().map(said).collect()
        };
        let copy = |n: u32| format!("layer 1 copy; at 0 0; source {n}");
        assert_eq!(said(&copy(15)), [""; 0]);
        assert_eq!(
            said(&copy(16)),
            ["1:30: no play has a source 16: they are 0 to 15"]
        );
        assert_eq!(said(&format!("sources a b\n{}", copy(1))), [""; 0]);
        assert_eq!(
            said(&format!("sources a b\n{}", copy(2))),
            ["2:30: source 2 has no name: 2 names are given, for sources 0 to 1"]
        );
        assert_eq!(
            said(&format!("sources a\n{}", copy(2))),
            ["2:30: source 2 has no name: 1 name is given, for source 0"]
        );
    }

    #[test]
    fn what_is_wrong_is_said() {
        assert_eq!(
            said("layer 1 fill; rect 0 0 1 1"),
            ["a fill layer needs `colour #RRGGBBAA`"]
        );
        assert_eq!(
            said("layer 1 fill; rect 0 0 1 1; colour red; gradient vertical 0 1 red blue"),
            ["a fill has a colour or a gradient, not both"]
        );
        assert_eq!(
            said("layer 1 frame; rect 0 0 1 1; tag valt"),
            ["expected a tag, one of admin, vault, personal, work, usb, untrusted, disposable; did you mean `vault`?"]
        );
        assert_eq!(
            said("layer 1 glass; rect 0 0 1 1; table 1 2"),
            ["expected `table` with 33 numbers, `table linear FROM` or `table round FROM`"]
        );
        assert_eq!(
            said("layer 1 copy; source 0; at 0 0; alpha 256"),
            ["expected a whole number from 0 to 255, found `256`"]
        );
        assert_eq!(
            said("layer 1 fill; rect 0 0 1 1; gradient radal 1"),
            ["expected `gradient vertical Y0 Y1 COLOUR COLOUR`, \
                 `gradient linear X0 Y0 X1 Y1 COLOUR COLOUR` or \
                 `gradient radial X Y RADIUS COLOUR COLOUR`; did you mean `radial`?"]
        );
        assert_eq!(
            said("layer 1 fill; rect 0 0 1 1; gradient radial 1 2 white"),
            ["expected `gradient radial X Y RADIUS COLOUR COLOUR`, found 3 values behind `radial`"]
        );
    }

    #[test]
    fn a_value_out_of_its_range_is_pointed_at() {
        let at = |text: &str| -> Vec<String> {
            let said = |p: &Problem| format!("{}+{}: {}", p.column, p.width, p.message);
            parse(text).problems.iter().map(said).collect()
        };
        assert_eq!(
            at("layer 1 glass; rect 0 0 -3 99999; blur 65; bezel x"),
            [
                "40+2: `blur` takes 0 to 64, found `65`",
                "50+1: expected a number from 0 to 256, found `x`",
                "25+2: `rect` takes 0 to 16384 as its WIDTH, found `-3`",
                "28+5: `rect` takes 0 to 16384 as its HEIGHT, found `99999`",
            ]
        );
    }
}
