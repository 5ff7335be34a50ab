//! Texts at random: whatever stands in them, the reader answers, points at a place that is there, and lets nothing
//! through that could steer a terminal. A number that the library would refuse is found before.
mod common;

use common::Dice;
use show::{make, report, report_warnings, write, Problem};

const WORDS: [&str; 64] = [
    "layer",
    "layer",
    "layer",
    "sources",
    "fill",
    "stroke",
    "shadow",
    "glass",
    "copy",
    "scaled",
    "genie",
    "frame",
    "rect",
    "radius",
    "blur",
    "colour",
    "tint",
    "gradient",
    "vertical",
    "linear",
    "radial",
    "table",
    "round",
    "bezel",
    "source",
    "at",
    "alpha",
    "dim",
    "target",
    "t",
    "tag",
    "vault",
    "border",
    "xray",
    "clip",
    "width",
    "spec",
    "saturation",
    "yes",
    "white/40",
    "#12345",
    "#11223344",
    "whit",
    "0",
    "1",
    "-1",
    "-0",
    "0.5",
    "16384",
    "16385",
    "-16384.001",
    "1e39",
    "1e-45",
    "65535",
    "65536",
    "4294967296",
    "nan",
    "0x7FC00000",
    "a",
    "b",
    "\u{202e}x",
    "\x1b[2J",
    "é中",
    "\0",
];

const GAPS: [&str; 16] = [
    " ", " ", " ", " ", " ", "\n", "\n", "\n", ";", "; ", "\t", "\r\n", " // ", "\r", "\u{85}", "",
];

/// One of the words.
fn any<'a>(dice: &mut Dice, all: &[&'a str]) -> &'a str {
    all[dice.below(all.len() as u64) as usize]
}

/// Words and gaps without any order.
fn noise(dice: &mut Dice) -> String {
    let words = 1 + dice.below(60);
    let pair = |_| format!("{}{}", any(dice, &WORDS), any(dice, &GAPS));
    (0..words).map(pair).collect()
}

/// A right text in which some words are others.
fn slips(dice: &mut Dice, text: &str) -> String {
    let words = text.split(' ');
    let changed = words.map(|word| match dice.below(400) {
        0 => any(dice, &WORDS),
        _ => word,
    });
    changed.collect::<Vec<_>>().join(" ")
}

/// Whether a problem points at something in the text.
fn is_there(text: &str, p: &Problem) -> bool {
    let text = text.strip_prefix('\u{feff}').unwrap_or(text);
    let line = p.line.checked_sub(1).and_then(|n| text.lines().nth(n));
    match line {
        Some(line) => p.column + p.width <= line.chars().count() + 1 && p.column * p.width > 0,
        None => p.line + p.column + p.width == 0,
    }
}

fn test(text: &str) -> bool {
    let (problems, warnings) = match make(text) {
        Ok(made) => {
            let again = write(&made.rundown);
            assert_eq!(make(&again).unwrap().rundown, made.rundown);
            (Vec::new(), made.warnings)
        }
        Err(problems) => {
            assert!(!problems.is_empty());
            (problems, Vec::new())
        }
    };
    for p in problems.iter().chain(&warnings) {
        assert!(is_there(text, p), "{p:?} {text:?}");
        let causes = ["(cause 6)", "(cause 7)", "(cause 15)"];
        let refused = causes.iter().any(|cause| p.message.contains(cause));
        assert!(!refused, "{p:?} {text:?}");
    }
    let said = report("a.txt", text, &problems) + &report_warnings("a.txt", text, &warnings);
    let steers = |c: char| c.is_control() && c != '\n' && c != '\t' || c == '\u{202e}';
    assert!(!said.contains(steers), "{said:?}");
    problems.is_empty()
}

#[test]
fn words_at_random() {
    let mut dice = Dice(1);
    for _ in 0..20_000 {
        test(&noise(&mut dice));
    }
}

#[test]
fn slips_in_a_right_text() {
    let mut dice = Dice(2);
    // A text as `write` gives it has one blank between two words, and every field of its layers.
    let bulletin = make(include_str!("../../../showcase/bulletin.txt")).unwrap();
    let text = write(&bulletin.rundown);
    let right = (0..2_000)
        .filter(|_| test(&slips(&mut dice, &text)))
        .count();
    // Some slips change nothing that matters; most are found.
    assert!((1..1_000).contains(&right), "{right}");
}
