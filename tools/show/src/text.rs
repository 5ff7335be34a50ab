//! The text form of a show: a block of named fields for each layer.
use crate::fields::Fields;
use crate::problem::Problem;
use crate::statement::{statements, Statement, Word};
use crate::suggest::did_you_mean;
use crate::{layers, name, whole};
use std::collections::HashSet;
use tiglostrema::{Layer, MAX_SOURCES};

/// A layer as it stands in the text.
pub struct Entry<'a> {
    /// Its priority.
    pub priority: u16,
    /// What it paints.
    pub layer: Layer,
    /// The priority's word in the layer's first line.
    pub number: Word<'a>,
    /// The kind's word there, which messages about the layer point at.
    pub kind: Word<'a>,
}

/// A show's layers in the text's order, all that is wrong with the text, and what is odd about it.
pub struct Show<'a> {
    /// The names of source 0, 1 and so on, as far as they are given.
    pub names: Vec<&'a str>,
    /// The layers that could be read.
    pub entries: Vec<Entry<'a>>,
    /// What is wrong.
    pub problems: Vec<Problem>,
    /// What may be meant, but is likely a slip.
    pub warnings: Vec<Problem>,
}

/// Whether bytes look like a show's text, right or wrong: UTF-8 with a `layer` or `sources` in it.
pub fn is_text(bytes: &[u8]) -> bool {
    let text = std::str::from_utf8(bytes).unwrap_or_default();
    let first = |s: &Statement| matches!(s.name.text, "layer" | "sources");
    statements(text).iter().any(first)
}

/// Reads a show.
pub fn parse(text: &str) -> Show<'_> {
    let mut show = Show {
        names: Vec::new(),
        entries: Vec::new(),
        problems: Vec::new(),
        warnings: Vec::new(),
    };
    let mut all = statements(text).into_iter().peekable();
    let mut before = Vec::new();
    while let Some(statement) = all.next_if(|s| !is_layer(s)) {
        before.push(statement);
    }
    let names = source_names(before, &mut show.problems);
    show.warnings.extend(too_many(&names));
    show.names = names.iter().map(|name| name.text).collect();
    // The layers are added one by one, and the library numbers a block that it is given behind those that it holds,
    // wherever it would stand.
    let mut block = 0;
    while let Some(head) = all.next() {
        let mut fields = Vec::new();
        while let Some(field) = all.next_if(|s| !is_layer(s)) {
            fields.push(field);
        }
        match entry(block, &head, fields, &show.names) {
            Ok((entry, warnings)) => {
                show.entries.push(entry);
                show.warnings.extend(warnings);
            }
            Err(problems) => show.problems.extend(problems),
        }
        block += 1;
    }
    if show.entries.is_empty() && show.problems.is_empty() {
        let words = "this show has no layers, and neither has its rundown";
        show.warnings.push(Problem::with_all(words));
    }
    show
}

/// A warning at the first name beyond those that a play has sources for.
fn too_many(names: &[Word<'_>]) -> Option<Problem> {
    let (given, last) = (names.len(), MAX_SOURCES - 1);
    let words = format!("{given} names are given; a play has sources 0 to {last} at most");
    Some(Problem::at(*names.get(MAX_SOURCES)?, words))
}

fn is_layer(statement: &Statement<'_>) -> bool {
    statement.name.text == "layer"
}

/// What stands before the first layer: `sources NAME ...`, the names of source 0, 1 and so on.
fn source_names<'a>(before: Vec<Statement<'a>>, problems: &mut Vec<Problem>) -> Vec<Word<'a>> {
    let mut names = Vec::new();
    let mut known = HashSet::new();
    for statement in before {
        let word = statement.name.text;
        if word != "sources" {
            let near = did_you_mean(word, &["layer", "sources"]);
            let words = match word.starts_with('#') {
                true => "a comment starts with //".to_owned(),
                false => format!(
                    "expected `layer PRIORITY KIND` or `sources NAME ...`, found `{word}`{near}"
                ),
            };
            problems.push(Problem::at(statement.name, words));
        }
        for value in statement.values.iter().filter(|_| word == "sources") {
            if !known.insert(value.text) {
                problems.push(Problem::at(*value, "this source's name is already given"));
            } else if !name::is_name(value.text) {
                problems.push(Problem::at(*value, name::wrong(value.text)));
            }
            // A comma behind a name is told once, and not again where a layer means that name.
            let text = value.text.trim_end_matches(',');
            names.push(Word { text, ..*value });
        }
    }
    names
}

/// One layer of its first line and its fields.
fn entry<'a>(
    block: usize,
    head: &Statement<'a>,
    fields: Vec<Statement<'a>>,
    names: &[&str],
) -> Result<(Entry<'a>, Vec<Problem>), Vec<Problem>> {
    let [number, kind] = head.values[..] else {
        let more = match head.values.len() {
            0..=2 => "",
            _ => "; fields stand on lines of their own, or behind a ;",
        };
        let words = format!("expected `layer PRIORITY KIND`, as `layer 30 glass`{more}");
        return Err(vec![Problem::at(head.name, words)]);
    };
    let priority = whole::read(number.text, 0, u16::MAX.into());
    let priority = priority.map_err(|why| Problem::at(number, why));
    let mut fields = Fields::new(block, kind, kind.text, fields);
    let Some(layer) = layers::read(kind.text, &mut fields, names) else {
        let near = match did_you_mean(kind.text, &layers::KINDS) {
            near if near.is_empty() => format!("; the kinds are {}", layers::KINDS.join(", ")),
            near => near,
        };
        let words = format!("there is no kind `{}`{near}", kind.text);
        let problem = Problem::at(kind, words);
        return Err(priority.err().into_iter().chain([problem]).collect());
    };
    let mut found = fields.finish();
    match priority {
        Ok(priority) if found.problems.is_empty() => {
            let entry = Entry {
                priority: priority as u16,
                layer,
                number,
                kind,
            };
            Ok((entry, found.warnings))
        }
        priority => {
            found.problems.extend(priority.err());
            Err(found.problems)
        }
    }
}

#[cfg(test)]
mod tests {
    use super::*;
    use tiglostrema::{Color, Fill, Rect, StraightCopy};

    fn problems(text: &str) -> Vec<String> {
        let show = parse(text);
        let said = |p: &Problem| format!("{}:{}: {}", p.line, p.column, p.message);
        show.problems.iter().map(said).collect()
    }

    #[test]
    fn a_show_of_two_layers() {
        let text =
            "sources studio signer // 0 and 1\n\nlayer 10 copy\n  source signer\n  at 4 -5\n\
                    layer 9 fill; rect 0 0 8 4; colour white\n";
        let show = parse(text);
        assert!(show.problems.is_empty());
        assert_eq!(show.names, ["studio", "signer"]);
        let found: Vec<(u16, usize, Layer)> = show
            .entries
            .iter()
            .map(|e| (e.priority, e.kind.line, e.layer))
            .collect();
        let fill = Fill::new(Rect::new(0.0, 0.0, 8.0, 4.0), Color::WHITE);
        let copy = StraightCopy::new(1, 4, -5);
        assert_eq!(found, [(10, 3, copy.into()), (9, 6, fill.into())]);
    }

    #[test]
    fn an_empty_show() {
        let show = parse("// nothing yet\n");
        assert!(show.entries.is_empty() && show.problems.is_empty());
        let words = "this show has no layers, and neither has its rundown";
        assert_eq!(show.warnings, [Problem::with_all(words)]);
    }

    #[test]
    fn more_names_than_sources() {
        let names: Vec<String> = (0..16).map(|n| format!("s{n:02}")).collect();
        let text = |more: &str| {
            format!(
                "sources {}{more}\nlayer 1 frame; rect 0 0 1 1; tag usb",
                names.join(" ")
            )
        };
        assert_eq!(parse(&text("")).warnings, []);
        let more = text(" more x");
        let show = parse(&more);
        assert_eq!(show.names.len(), 18);
        let [warning] = &show.warnings[..] else {
            panic!("{:?}", show.warnings);
        };
        assert_eq!((warning.line, warning.column, warning.width), (1, 73, 4));
        assert_eq!(
            warning.message,
            "18 names are given; a play has sources 0 to 15 at most"
        );
    }

    #[test]
    fn texts_are_told_from_rundowns() {
        for text in ["layer 1 fil", "\u{feff}// a\r\n  sources a", "x; layer"] {
            assert!(is_text(text.as_bytes()), "{text}");
        }
        for bytes in ["", "player 1", "// layer 1 fill", "\0layer 1", "layer\0 1"] {
            assert!(!is_text(bytes.as_bytes()), "{bytes}");
        }
        assert!(!is_text(b"layer 1 fill\n\xff"));
    }

    #[test]
    fn lines_that_are_no_layers() {
        assert_eq!(
            problems("lyer 1 fill\n# note\nlayer 1\nlayer 1 copy at 0 0\nlayer 70000 fil\nlayer 1 text\n"),
            [
                "1:1: expected `layer PRIORITY KIND` or `sources NAME ...`, found `lyer`; did you mean `layer`?",
                "2:1: a comment starts with //",
                "3:1: expected `layer PRIORITY KIND`, as `layer 30 glass`",
                "4:1: expected `layer PRIORITY KIND`, as `layer 30 glass`; \
                 fields stand on lines of their own, or behind a ;",
                "5:7: expected a whole number from 0 to 65535, found `70000`",
                "5:13: there is no kind `fil`; did you mean `fill`?",
                "6:9: there is no kind `text`; the kinds are fill, stroke, shadow, glass, copy, \
                 scaled, genie, frame",
            ]
        );
    }

    #[test]
    fn names_of_sources() {
        assert_eq!(
            problems("sources a a 7\nlayer 1 copy; source b; at 0 0"),
            [
                "1:11: this source's name is already given",
                "1:13: a source's name is a letter, then letters, digits, `_` or `-`",
                "2:22: expected a source's number, 0 to 15, or one of a, a, 7, found `b`; did you mean `a`?",
            ]
        );
        assert_eq!(
            problems("sources a, b\nlayer 1 copy; source a; at 0 0"),
            [
                "1:9: a source's name is a letter, then letters, digits, `_` or `-`; \
                 between names stand blanks"
            ]
        );
    }
}
