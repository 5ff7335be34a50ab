//! What is wrong with a text, and where.
use crate::escape::{columns, quoted, shown};
use crate::statement::{body, Word};
use std::fmt::Write;

/// How many problems are printed.
const PRINTED: usize = 20;

/// A line that is quoted has at most this many letters, so that a mark stands below its word on a terminal.
const WIDEST: usize = 100;

/// A message has at most this many letters: a word of the text may be as long as the text.
const LONGEST: usize = 400;

/// A problem or a warning, with the place that it points at, counted from 1.
#[derive(Clone, Debug, PartialEq, Eq)]
pub struct Problem {
    /// The line; 0 where it is about the whole text.
    pub line: usize,
    /// The column, in letters; 0 where it is about the whole text.
    pub column: usize,
    /// How many letters are meant.
    pub width: usize,
    /// What is wrong, in words. Control characters of the text are escaped.
    pub message: String,
}

impl Problem {
    /// A problem with this word.
    pub fn at(word: Word<'_>, message: impl AsRef<str>) -> Problem {
        Problem {
            line: word.line,
            column: word.column,
            width: word.text.chars().count(),
            message: told(message.as_ref()),
        }
    }

    /// A problem with the whole text.
    pub fn with_all(message: impl AsRef<str>) -> Problem {
        Problem {
            line: 0,
            column: 0,
            width: 0,
            message: told(message.as_ref()),
        }
    }
}

/// A message as it is told: escaped, and cut where it is too long.
fn told(message: &str) -> String {
    let mut letters = message.chars();
    let start: String = letters.by_ref().take(LONGEST).collect();
    let cut = if letters.next().is_some() { "…" } else { "" };
    shown(&start) + cut
}

/// The problems in words, in the order of the text: `FILE:LINE:COLUMN: message`, the line and a mark. Of many
/// the first twenty are told, and how many there are besides.
pub fn report(file: &str, text: &str, problems: &[Problem]) -> String {
    lines(file, text, problems, "")
}

/// Warnings in words, in the same way.
pub fn report_warnings(file: &str, text: &str, warnings: &[Problem]) -> String {
    lines(file, text, warnings, "warning: ")
}

fn lines(file: &str, text: &str, problems: &[Problem], what: &str) -> String {
    let mut sorted: Vec<&Problem> = problems.iter().collect();
    sorted.sort_by_key(|p| (p.line, p.column));
    let file = shown(file);
    let mut out = String::new();
    for p in sorted.iter().take(PRINTED) {
        // Writing into a String never fails.
        let _ = match p.line {
            0 => writeln!(out, "{file}: {what}{}", p.message),
            line => writeln!(out, "{file}:{line}:{}: {what}{}", p.column, p.message),
        };
        let line = p.line.checked_sub(1);
        let line = line.and_then(|number| body(text).lines().nth(number));
        out.push_str(&line.map_or(String::new(), |line| mark(line, p)));
    }
    if sorted.len() > PRINTED {
        let _ = writeln!(out, "and {} more", sorted.len() - PRINTED);
    }
    out
}

/// The line, and below it a mark under what is meant. Of a long line the part around it.
fn mark(line: &str, p: &Problem) -> String {
    let letters: Vec<char> = line.trim_end().chars().collect();
    let start = p.column.saturating_sub(1).min(letters.len());
    let from = match start + p.width > WIDEST {
        true => start.saturating_sub(WIDEST / 2),
        false => 0,
    };
    let to = letters.len().min(from + WIDEST);
    let part = |from: usize, to: usize| quoted(&letters[from..to].iter().collect::<String>());
    let end = to.min(start + p.width);
    let (before, meant, behind) = (part(from, start), part(start, end), part(end, to));
    let dots = |cut: bool| if cut { "… " } else { "" };
    let (left, right) = (dots(from > 0), dots(to < letters.len()).trim_end());
    let blanks: String = format!("{left}{before}").chars().map(blank).collect();
    let marks = "^".repeat(meant.chars().map(columns).sum::<usize>().max(1));
    format!("    {left}{before}{meant}{behind}{right}\n    {blanks}{marks}\n")
}

/// What stands left of a mark, below a letter and as wide: tabs stay, so that the mark stands under its word.
fn blank(letter: char) -> String {
    match letter {
        '\t' => "\t".to_owned(),
        letter => " ".repeat(columns(letter)),
    }
}

#[cfg(test)]
mod tests {
    use super::*;

    fn problem(line: usize, column: usize, width: usize) -> Problem {
        Problem {
            line,
            column,
            width,
            message: "what?".to_owned(),
        }
    }

    #[test]
    fn the_mark_stands_under_its_word() {
        let word = Word {
            text: "blurr",
            line: 2,
            column: 2,
        };
        let text = "layer 1 glass\n\tblurr 3\n";
        assert_eq!(
            report("a.txt", text, &[Problem::at(word, "what?")]),
            "a.txt:2:2: what?\n    \tblurr 3\n    \t^^^^^\n"
        );
    }

    #[test]
    fn wide_letters_and_accents() {
        let text = "sources 手話 e\u{301}t 通訳";
        assert_eq!(
            report("a.txt", text, &[problem(1, 16, 2)]),
            format!(
                "a.txt:1:16: what?\n    {text}\n    {}^^^^\n",
                " ".repeat(16)
            )
        );
    }

    #[test]
    fn controls_are_escaped_and_the_mark_still_fits() {
        let word = Word {
            text: "3\x1b[2J",
            line: 1,
            column: 7,
        };
        let words = format!("found `{}`", word.text);
        assert_eq!(
            report(
                "\x07.txt",
                "\x08blur 3\x1b[2J\r\n",
                &[Problem::at(word, words)]
            ),
            "\\x07.txt:1:7: found `3\\x1b[2J`\n    \\x08blur 3\\x1b[2J\n    \
             \u{20}        ^^^^^^^^\n"
        );
    }

    #[test]
    fn a_byte_order_mark_is_not_quoted() {
        assert_eq!(
            report("a.txt", "\u{feff}lyer 1", &[problem(1, 1, 4)]),
            "a.txt:1:1: what?\n    lyer 1\n    ^^^^\n"
        );
    }

    #[test]
    fn of_a_long_line_a_part_is_shown() {
        let text = format!("{}here{}", "x ".repeat(200), " y".repeat(200));
        let said = report("a.txt", &text, &[problem(1, 401, 4)]);
        let lines: Vec<&str> = said.lines().collect();
        assert!(lines[1].chars().count() <= 4 + 2 + WIDEST + 1, "{said}");
        assert!(lines[1].starts_with("    … x ") && lines[1].ends_with('…'));
        let place = lines[1].chars().position(|c| c == 'h');
        assert_eq!(place, lines[2].chars().position(|c| c == '^'));
        assert_eq!(lines[2].trim(), "^^^^");
    }

    #[test]
    fn a_word_beyond_all_bounds_is_cut() {
        let text = "x".repeat(5000);
        let said = report("a.txt", &text, &[problem(1, 1, 5000)]);
        assert!(
            said.lines().all(|line| line.chars().count() < 120),
            "{said}"
        );
        let message = Problem::with_all(text).message;
        assert_eq!(message.chars().count(), LONGEST + 1);
    }

    #[test]
    fn twenty_are_told_in_the_order_of_the_text() {
        let text = "a\n".repeat(27);
        let many: Vec<Problem> = (1..=27).rev().map(|line| problem(line, 1, 1)).collect();
        let said = report("a.txt", &text, &many);
        assert!(said.starts_with("a.txt:1:1: what?\n    a\n    ^\na.txt:2:1:"));
        assert!(said.ends_with("a.txt:20:1: what?\n    a\n    ^\nand 7 more\n"));
        assert!(!report("a.txt", &text, &many[7..]).contains("more"));
    }

    #[test]
    fn warnings() {
        let all = [problem(1, 1, 1), Problem::with_all("nothing here")];
        assert_eq!(
            report_warnings("a.txt", "a\n", &all),
            "a.txt: warning: nothing here\na.txt:1:1: warning: what?\n    a\n    ^\n"
        );
    }
}
