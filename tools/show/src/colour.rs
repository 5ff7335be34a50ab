//! Colours as words: `#RRGGBB`, `#RRGGBBAA`, or a name, with an alpha behind a slash if wanted.
use crate::suggest::nearest;
use tiglostrema::Color;

/// The names, those of the simplest colours of the web, and `clear`.
const NAMES: [(&str, Color); 18] = [
    ("clear", Color::rgba(0, 0, 0, 0)),
    ("black", Color::rgb(0, 0, 0)),
    ("silver", Color::rgb(192, 192, 192)),
    ("gray", Color::rgb(128, 128, 128)),
    ("grey", Color::rgb(128, 128, 128)),
    ("white", Color::rgb(255, 255, 255)),
    ("maroon", Color::rgb(128, 0, 0)),
    ("red", Color::rgb(255, 0, 0)),
    ("purple", Color::rgb(128, 0, 128)),
    ("magenta", Color::rgb(255, 0, 255)),
    ("green", Color::rgb(0, 128, 0)),
    ("lime", Color::rgb(0, 255, 0)),
    ("olive", Color::rgb(128, 128, 0)),
    ("yellow", Color::rgb(255, 255, 0)),
    ("navy", Color::rgb(0, 0, 128)),
    ("blue", Color::rgb(0, 0, 255)),
    ("teal", Color::rgb(0, 128, 128)),
    ("cyan", Color::rgb(0, 255, 255)),
];

/// What a colour looks like, for messages.
const EXPECTED: &str =
    "a colour as #RRGGBB, #RRGGBBAA or a name as white, with white/128 for its alpha";

/// The same for a colour without an alpha.
const OPAQUE: &str = "an opaque colour as #RRGGBB or a name as white";

/// The colour of a word, or what is wrong with it.
///
/// ```
/// assert_eq!(show::colour::read("black/128"), Ok(tiglostrema::Color::rgba(0, 0, 0, 128)));
/// assert!(show::colour::read("balck/128").unwrap_err().ends_with("did you mean `black/128`?"));
/// ```
///
/// # Errors
///
/// What was expected, in words, and the name that may have been meant.
pub fn read(word: &str) -> Result<Color, String> {
    let wrong = || {
        let hint = hint(word, &names());
        format!("expected {EXPECTED}, found `{word}`{hint}")
    };
    parse(word).ok_or_else(wrong)
}

/// The pixel of a word that is an opaque colour, or what is wrong with it: canvases and sources have no alpha.
///
/// ```
/// assert_eq!(show::colour::pixel("navy"), Ok(0x000080));
/// assert!(show::colour::pixel("navy/128").unwrap_err().ends_with("it has an alpha"));
/// ```
///
/// # Errors
///
/// What was expected, in words, and the name that may have been meant.
pub fn pixel(word: &str) -> Result<u32, String> {
    let why = match parse(word) {
        Some(colour) if colour.a == 255 => return Ok(colour.to_pixel()),
        Some(_) => "; it has an alpha".to_owned(),
        None => hint(word, &opaque_names()),
    };
    Err(format!("expected {OPAQUE}, found `{word}`{why}"))
}

/// Which of the names may have been meant by a word that is no colour, as the end of a sentence.
fn hint(word: &str, names: &[&str]) -> String {
    let (name, alpha) = word.split_at(word.find('/').unwrap_or(word.len()));
    let is_name = |n: &&str| n.eq_ignore_ascii_case(name);
    if names.iter().any(is_name) {
        return "; an alpha is 0 to 255".to_owned();
    }
    match nearest(name, names) {
        Some(name) => format!("; did you mean `{name}{alpha}`?"),
        None if name.starts_with(|c: char| c.is_alphabetic()) => {
            format!("; the names are {}", names.join(", "))
        }
        None => String::new(),
    }
}

/// The colour of a word.
pub fn parse(word: &str) -> Option<Color> {
    if let Some(digits) = word.strip_prefix('#') {
        return hexadecimal(digits);
    }
    let (name, alpha) = match word.split_once('/') {
        Some((name, alpha)) => (name, Some(alpha.parse().ok()?)),
        None => (word, None),
    };
    let known = |&&(n, _): &&(&str, Color)| n.eq_ignore_ascii_case(name);
    let (_, colour) = NAMES.iter().find(known)?;
    Some(alpha.map_or(*colour, |a| colour.with_alpha(a)))
}

fn hexadecimal(digits: &str) -> Option<Color> {
    if !digits.bytes().all(|b| b.is_ascii_hexdigit()) {
        return None;
    }
    let number = u32::from_str_radix(digits, 16).ok()?;
    match digits.len() {
        6 => Some(Color::hex(number)),
        8 => Some(Color::hex(number >> 8).with_alpha(number as u8)),
        _ => None,
    }
}

/// The known names.
pub fn names() -> Vec<&'static str> {
    NAMES.iter().map(|(name, _)| *name).collect()
}

/// Those of them that have no alpha.
fn opaque_names() -> Vec<&'static str> {
    let opaque = NAMES.iter().filter(|(_, colour)| colour.a == 255);
    opaque.map(|(name, _)| *name).collect()
}

/// A colour as it is written in a show.
pub fn show(colour: Color) -> String {
    let rgb = colour.to_pixel();
    match colour.a {
        255 => format!("#{rgb:06X}"),
        a => format!("#{rgb:06X}{a:02X}"),
    }
}

#[cfg(test)]
mod tests {
    use super::*;

    #[test]
    fn pixels_have_no_alpha() {
        assert_eq!(pixel("#112233"), Ok(0x112233));
        assert_eq!(pixel("red/255"), Ok(0xFF0000));
        for word in ["clear", "red/254", "#11223344"] {
            let words = format!("expected {OPAQUE}, found `{word}`; it has an alpha");
            assert_eq!(pixel(word), Err(words));
        }
        assert!(pixel("rde").unwrap_err().ends_with("did you mean `red`?"));
    }

    #[test]
    fn colours_of_every_form() {
        assert_eq!(parse("#112233"), Some(Color::rgb(0x11, 0x22, 0x33)));
        assert_eq!(
            parse("#11223344"),
            Some(Color::rgba(0x11, 0x22, 0x33, 0x44))
        );
        assert_eq!(parse("White"), Some(Color::WHITE));
        assert_eq!(parse("black/128"), Some(Color::rgba(0, 0, 0, 128)));
        assert_eq!(parse("clear"), Some(Color::CLEAR));
    }

    #[test]
    fn what_is_no_colour() {
        for word in [
            "",
            "#",
            "#12345",
            "#+12345",
            "#1234567",
            "whit",
            "white/256",
            "white/",
            "#GG0000",
        ] {
            assert_eq!(parse(word), None, "{word}");
        }
    }

    #[test]
    fn what_was_meant() {
        let end = |word| {
            read(word)
                .unwrap_err()
                .split_once(", found ")
                .unwrap()
                .1
                .to_owned()
        };
        assert_eq!(end("whit"), "`whit`; did you mean `white`?");
        assert_eq!(end("Silber/9"), "`Silber/9`; did you mean `silver/9`?");
        assert_eq!(end("white/256"), "`white/256`; an alpha is 0 to 255");
        assert!(end("sky").starts_with("`sky`; the names are clear, black,"));
        assert_eq!(end("#12345"), "`#12345`");
        assert_eq!(end("/"), "`/`");
    }

    #[test]
    fn shown_colours_are_read_back() {
        for colour in [Color::WHITE, Color::CLEAR, Color::rgba(1, 2, 3, 4)] {
            assert_eq!(parse(&show(colour)), Some(colour));
        }
    }
}
