//! Texts of others on a terminal: what would steer it, or hide or turn letters, is shown as an escape.

/// The text with every such character as `\x1b` or `\u{202e}`. Tabs and line ends are among them.
///
/// ```
/// assert_eq!(show::shown("a\x1b[2J\tb"), "a\\x1b[2J\\x09b");
/// ```
pub fn shown(text: &str) -> String {
    text.chars().map(escaped).collect()
}

/// The same for a line that is quoted: tabs stay, so that it looks as it does in an editor.
pub fn quoted(line: &str) -> String {
    let one = |letter| match letter {
        '\t' => "\t".to_owned(),
        letter => escaped(letter),
    };
    line.chars().map(one).collect()
}

fn escaped(letter: char) -> String {
    let code = u32::from(letter);
    match code {
        _ if !is_hidden(letter) => letter.to_string(),
        0..=0xFF => format!("\\x{code:02x}"),
        _ => format!("\\u{{{code:x}}}"),
    }
}

/// Whether a letter steers the terminal, or cannot be seen: controls, ends of lines and paragraphs, marks of
/// direction, joiners, fillers and tags.
fn is_hidden(letter: char) -> bool {
    letter.is_control()
        || matches!(letter,
            '\u{ad}' | '\u{61c}' | '\u{180e}' | '\u{200b}'..='\u{200f}' | '\u{2028}'..='\u{202e}'
            | '\u{2060}'..='\u{206f}' | '\u{feff}' | '\u{fff9}'..='\u{fffb}' | '\u{e0000}'..='\u{e007f}')
}

/// How many columns of a terminal a letter takes: accents that stand over another one none, those of East Asia and
/// pictures two.
pub fn columns(letter: char) -> usize {
    match letter {
        '\u{300}'..='\u{36f}'
        | '\u{483}'..='\u{489}'
        | '\u{591}'..='\u{5bd}'
        | '\u{610}'..='\u{61a}'
        | '\u{64b}'..='\u{65f}'
        | '\u{1ab0}'..='\u{1aff}'
        | '\u{1dc0}'..='\u{1dff}'
        | '\u{20d0}'..='\u{20ff}'
        | '\u{fe00}'..='\u{fe0f}'
        | '\u{fe20}'..='\u{fe2f}' => 0,
        '\u{1100}'..='\u{115f}'
        | '\u{2e80}'..='\u{303e}'
        | '\u{3041}'..='\u{a4cf}'
        | '\u{ac00}'..='\u{d7a3}'
        | '\u{f900}'..='\u{faff}'
        | '\u{fe30}'..='\u{fe6f}'
        | '\u{ff00}'..='\u{ff60}'
        | '\u{ffe0}'..='\u{ffe6}'
        | '\u{1f300}'..='\u{1f64f}'
        | '\u{1f900}'..='\u{1f9ff}'
        | '\u{20000}'..='\u{3fffd}' => 2,
        _ => 1,
    }
}

#[cfg(test)]
mod tests {
    use super::*;

    #[test]
    fn only_what_is_hidden_is_escaped() {
        assert_eq!(
            shown("blur é 中 \u{202e}x\u{9b}2J\x7f\0"),
            "blur é 中 \\u{202e}x\\x9b2J\\x7f\\x00"
        );
        assert_eq!(shown("a\tb\r\n"), "a\\x09b\\x0d\\x0a");
        assert_eq!(quoted("a\tb\r"), "a\tb\\x0d");
    }
}
