//! A show's text as statements: each line, or part of a line between semicolons, is one.

/// A word and where it stands, both counted from 1.
#[derive(Clone, Copy, Debug, PartialEq, Eq)]
pub struct Word<'a> {
    /// The word itself.
    pub text: &'a str,
    /// Its line.
    pub line: usize,
    /// Its first letter's column.
    pub column: usize,
}

/// A name and the words behind it.
#[derive(Clone, Debug, PartialEq, Eq)]
pub struct Statement<'a> {
    pub name: Word<'a>,
    pub values: Vec<Word<'a>>,
}

/// The text without the byte-order mark that some editors put before it.
pub fn body(text: &str) -> &str {
    text.strip_prefix('\u{feff}').unwrap_or(text)
}

/// The statements of a text. A comment goes from `//` to the end of its line.
pub fn statements(text: &str) -> Vec<Statement<'_>> {
    let mut all = Vec::new();
    for (number, line) in body(text).lines().enumerate() {
        let code = line.split("//").next().unwrap_or_default();
        let mut column = 1;
        for part in code.split(';') {
            let mut words = words(part, number + 1, column);
            if let Some(name) = words.next() {
                let values = words.collect();
                all.push(Statement { name, values });
            }
            column += part.chars().count() + 1;
        }
    }
    all
}

/// The words of a part of a line, which begins at a column.
fn words(part: &str, line: usize, mut column: usize) -> impl Iterator<Item = Word<'_>> {
    let mut before = 0;
    part.split_whitespace().map(move |text| {
        // The word is a part of `part`, so the distance of their starts is its place there.
        let place = text.as_ptr() as usize - part.as_ptr() as usize;
        column += part[before..place].chars().count();
        before = place;
        Word { text, line, column }
    })
}

#[cfg(test)]
mod tests {
    use super::*;

    fn shown(text: &str) -> Vec<String> {
        let word = |w: &Word| format!("{}:{}:{}", w.text, w.line, w.column);
        statements(text)
            .iter()
            .map(|s| {
                let values: Vec<String> = s.values.iter().map(word).collect();
                format!("{} {}", word(&s.name), values.join(" "))
            })
            .collect()
    }

    #[test]
    fn words_have_their_places() {
        assert_eq!(
            shown("layer 10 fill\n  rect 0 1"),
            ["layer:1:1 10:1:7 fill:1:10", "rect:2:3 0:2:8 1:2:10"]
        );
    }

    #[test]
    fn a_byte_order_mark_is_no_letter() {
        assert_eq!(shown("\u{feff}layer 10"), ["layer:1:1 10:1:7"]);
    }

    #[test]
    fn semicolons_part_statements_on_a_line() {
        assert_eq!(
            shown("layer 1 fill; radius 2 ;; colour #FFF"),
            [
                "layer:1:1 1:1:7 fill:1:9",
                "radius:1:15 2:1:22",
                "colour:1:27 #FFF:1:34"
            ]
        );
    }

    #[test]
    fn comments_and_empty_lines_are_left_out() {
        assert_eq!(
            shown("// all\n\n  \nblur 3 // soft; more"),
            ["blur:4:1 3:4:6"]
        );
    }

    #[test]
    fn columns_count_letters_not_bytes() {
        assert_eq!(shown("é é; ü"), ["é:1:1 é:1:3", "ü:1:6 "]);
    }
}
