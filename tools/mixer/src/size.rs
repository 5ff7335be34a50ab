//! Sizes as words, `1280x720`.
use crate::cli::failure::Failure;
use crate::words;

/// A width and a height. Whether a canvas or a source may be of that size is for the library to say.
pub fn parse(word: &str) -> Option<(u32, u32)> {
    let (w, h) = word.split_once(['x', 'X', '×'])?;
    let side = |s: &str| {
        s.bytes()
            .all(|b| b.is_ascii_digit())
            .then(|| s.parse().ok())?
    };
    Some((side(w)?, side(h)?))
}

/// The same for an option's value.
pub fn option(name: &str, word: &std::ffi::OsStr) -> Result<(u32, u32), Failure> {
    words::value(name, word, "a size as 1280x720", parse)
}

#[cfg(test)]
mod tests {
    use super::*;

    #[test]
    fn sizes() {
        assert_eq!(parse("1280x720"), Some((1280, 720)));
        assert_eq!(parse("0x5"), Some((0, 5)));
        for word in [
            "",
            "x",
            "12",
            "12x",
            "-1x2",
            "1x2x3",
            "+1x2",
            "99999999999x1",
        ] {
            assert_eq!(parse(word), None, "{word}");
        }
    }
}
