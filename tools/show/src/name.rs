//! The names of sources.

/// What a source may be called, in words.
const RULE: &str = "a source's name is a letter, then letters, digits, `_` or `-`";

/// What is wrong with a word that is no name.
pub fn wrong(word: &str) -> String {
    let more = match word.contains(',') {
        true => "; between names stand blanks",
        false => "",
    };
    format!("{RULE}{more}")
}

/// Whether a source may be called so. A name is no number, and a command line can say `NAME=FILE` and `NAME=WxH,...`.
///
/// ```
/// assert!(show::is_name("camera_2-é") && show::is_name("手話"));
/// assert!(!show::is_name("a=b") && !show::is_name("2nd") && !show::is_name(""));
/// ```
pub fn is_name(word: &str) -> bool {
    let inner = |c: char| c.is_alphanumeric() || c == '_' || c == '-';
    word.starts_with(char::is_alphabetic) && word.chars().all(inner)
}
