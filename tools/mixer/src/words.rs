//! Words of the command line, as messages repeat them.
use crate::cli::failure::Failure;
use show::colour;
use std::ffi::OsStr;

/// A word with its control characters as escapes, so that no file's name can steer the terminal.
pub fn shown(word: &OsStr) -> String {
    match word.is_empty() {
        true => "\"\"".to_owned(),
        false => show::shown(&word.to_string_lossy()),
    }
}

/// An option's value, by the reader of its word; where that finds none, what the option takes is said.
pub fn value<T>(
    option: &str,
    word: &OsStr,
    what: &str,
    read: impl FnOnce(&str) -> Option<T>,
) -> Result<T, Failure> {
    let words = || format!("`{option}` takes {what}, not `{}`", shown(word));
    let found = word.to_str().and_then(read);
    found.ok_or_else(|| Failure::usage(words()))
}

/// The pixel of an option's colour, which is the value or a part of it.
pub fn pixel(option: &str, value: &OsStr, word: &str) -> Result<u32, Failure> {
    let wrong = |why: String| {
        let why = show::shown(&why);
        Failure::usage(format!("`{option} {}`: {why}", shown(value)))
    };
    colour::pixel(word).map_err(wrong)
}

/// A word as a shell takes it, for a command that is proposed.
pub fn typed(word: &OsStr) -> String {
    let shown = shown(word);
    let plain = |c: char| c.is_alphanumeric() || "_-./+,:@%=".contains(c);
    match shown.chars().all(plain) {
        true => shown,
        false => format!("'{}'", shown.replace('\'', "'\\''")),
    }
}

#[cfg(test)]
mod tests {
    use super::*;
    use std::os::unix::ffi::OsStrExt;

    #[test]
    fn what_an_option_takes() {
        let blur = |word: &[u8]| {
            let word = OsStr::from_bytes(word);
            value("--blur", word, "a number", show::number::read).map_err(|f| f.to_string())
        };
        assert_eq!(blur(b"-2.5"), Ok(-2.5));
        for (word, said) in [(&b"nan"[..], "nan"), (b"\xff", "\u{FFFD}"), (b"", "\"\"")] {
            let words = format!("mixer: `--blur` takes a number, not `{said}`");
            assert_eq!(blur(word), Err(words));
        }
    }

    #[test]
    fn words_for_a_shell() {
        let typed = |word: &str| typed(OsStr::new(word));
        assert_eq!(typed("shows/bildé_1.txt"), "shows/bildé_1.txt");
        assert_eq!(typed("my show.txt"), "'my show.txt'");
        assert_eq!(typed("it's.txt"), r"'it'\''s.txt'");
    }

    #[test]
    fn names_of_files() {
        let shown = |word: &[u8]| shown(OsStr::from_bytes(word));
        assert_eq!(shown("bildé 1.png".as_bytes()), "bildé 1.png");
        assert_eq!(shown(b"a\x1b[2J"), r"a\x1b[2J");
        assert_eq!(shown(b"\xff"), "\u{FFFD}");
        assert_eq!(shown(b""), "\"\"");
    }
}
