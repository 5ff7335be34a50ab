//! Help for a narrow terminal. Help is stored as it is read on a hundred columns: paragraphs, options with their
//! descriptions behind them, and an example.
use std::iter::Peekable;
use std::str::Lines;

/// Narrower than this no help can be read.
const LEAST: usize = 40;

/// The room that a description needs beside its option; where there is less, it stands below.
const ROOM: usize = 24;

/// The help, with no line longer than `width` that can be broken. Help that fits stays as it is, and so does an
/// example, whose lines mean something.
pub fn wrap(help: &str, width: usize) -> String {
    let width = width.max(LEAST);
    if help.lines().all(|line| line.chars().count() <= width) {
        return help.to_owned();
    }
    let mut out = String::new();
    let mut lines = help.lines().peekable();
    while let Some(line) = lines.next() {
        if line.starts_with("Example") {
            as_it_is(line, &mut lines, &mut out);
        } else {
            Entry::read(line, &mut lines).write(width, &mut out);
        }
    }
    out
}

/// An example goes up to the next line that is not indented.
fn as_it_is(head: &str, lines: &mut Peekable<Lines<'_>>, out: &mut String) {
    let mut line = Some(head);
    while let Some(text) = line {
        out.push_str(text);
        out.push('\n');
        line = lines.next_if(|next| next.is_empty() || indent(next) > 0);
    }
}

fn indent(line: &str) -> usize {
    line.len() - line.trim_start().len()
}

/// A paragraph, or an option with its description.
struct Entry<'a> {
    indent: usize,
    /// The option; empty for a paragraph.
    term: &'a str,
    /// Where the description, or a paragraph's second line, stands.
    column: usize,
    words: Vec<&'a str>,
}

impl<'a> Entry<'a> {
    /// The entry that begins with this line, and the lines that go on with it.
    fn read(line: &'a str, lines: &mut Peekable<Lines<'a>>) -> Entry<'a> {
        let mut entry = Entry::begin(line);
        let from = entry.indent;
        let goes_on = |next: &&str| match from {
            0 => !line.is_empty() && !next.is_empty() && indent(next) == 0,
            _ => indent(next) > from,
        };
        while let Some(next) = lines.next_if(goes_on) {
            entry.words.extend(next.split_whitespace());
        }
        entry
    }

    fn begin(line: &'a str) -> Entry<'a> {
        let (indent, text) = (indent(line), line.trim_start());
        // Two spaces part an option from its description.
        let parted = text.split_once("  ").filter(|_| indent > 0);
        let (term, rest) = parted.unwrap_or(("", text));
        let column = match (parted, text.strip_prefix("Usage: ")) {
            (Some(_), _) => line.chars().count() - rest.trim_start().chars().count(),
            (None, Some(_)) => "Usage: ".len(),
            (None, None) => indent,
        };
        Entry {
            indent,
            term,
            column,
            words: rest.split_whitespace().collect(),
        }
    }

    fn write(&self, width: usize, out: &mut String) {
        let (indent, term) = (self.indent, self.term);
        let beside = self.column + ROOM <= width;
        let (first, column) = match (term, beside) {
            ("", _) => (" ".repeat(indent), self.column),
            (_, true) => {
                let room = self.column - indent;
                (format!("{:indent$}{term:room$}", ""), self.column)
            }
            (_, false) => {
                out.push_str(&format!("{:indent$}{term}\n", ""));
                (" ".repeat(indent + 4), indent + 4)
            }
        };
        fill(first, column, &self.words, width, out);
    }
}

/// Words behind what their first line begins with; the lines below begin in a column.
fn fill(first: String, column: usize, words: &[&str], width: usize, out: &mut String) {
    let (mut line, mut fresh) = (first, true);
    for word in words {
        if !fresh && line.chars().count() + 1 + word.chars().count() > width {
            out.push_str(&format!("{line}\n"));
            (line, fresh) = (" ".repeat(column), true);
        }
        line.push_str(if fresh { "" } else { " " });
        line.push_str(word);
        fresh = false;
    }
    out.push_str(line.trim_end());
    out.push('\n');
}

#[cfg(test)]
mod tests {
    use super::*;
    use crate::commands;

    const HELP: &str = "Usage: mixer stain SHOW.rundown --canvas WxH -o OUT.png

Renders a rundown and marks the stain of a source, the pixels
that it can reach.

Options:
  --canvas WxH      the canvas on which the rundown is played, as 1280x720
  -o, --output OUT  the picture, which is written as
                    a whole

  copy     source S; at X Y; alpha 0..255 {255}
  A colour is a name as white, or white/128.
  Every layer has a clip, which is everything.

Example:
  layer 10 scaled;  source studio;  rect 0 0 1280 720
";

    #[test]
    fn help_that_fits_stays() {
        assert_eq!(wrap(HELP, 80), HELP);
    }

    #[test]
    fn descriptions_hang_behind_their_options() {
        let want = "Usage: mixer stain SHOW.rundown --canvas WxH
       -o OUT.png

Renders a rundown and marks the stain of a
source, the pixels that it can reach.

Options:
  --canvas WxH      the canvas on which the
                    rundown is played, as
                    1280x720
  -o, --output OUT  the picture, which is
                    written as a whole

  copy     source S; at X Y; alpha 0..255
           {255}
  A colour is a name as white, or white/128.
  Every layer has a clip, which is
  everything.

Example:
  layer 10 scaled;  source studio;  rect 0 0 1280 720
";
        assert_eq!(wrap(HELP, 44), want);
    }

    #[test]
    fn without_room_they_stand_below() {
        let want = "  --canvas WxH
      the canvas on which the rundown is
      played, as 1280x720
";
        assert!(wrap(HELP, 1).contains(want));
        assert_eq!(wrap(HELP, 1), wrap(HELP, LEAST));
    }

    #[test]
    fn no_word_of_any_help_is_lost() {
        for command in &commands::ALL {
            for width in [40, 60, 80] {
                let said = wrap(command.help, width);
                assert!(said.split_whitespace().eq(command.help.split_whitespace()));
                let (prose, _) = said.split_once("\nExample").unwrap_or((&said, ""));
                let long = prose.lines().find(|line| line.chars().count() > width);
                assert_eq!(long, None, "{} at {width}", command.name);
            }
        }
    }
}
