//! Rundowns from files.
use crate::cli::args::Opt;
use crate::cli::failure::Failure;
use crate::explain::Case;
use crate::words::typed;
use crate::{files, words};
use std::ffi::OsStr;
use std::path::Path;
use tiglostrema::{Layer, Refusal, Rundown};

/// The bytes of a file that should be a rundown. Of a show's text the library would say no more than that its
/// length is wrong, so it is told apart here.
pub fn bytes(path: &OsStr) -> Result<Vec<u8>, Failure> {
    let bytes = files::read(path)?;
    if !show::is_text(&bytes) {
        return Ok(bytes);
    }
    let out = match files::is_input(path) {
        true => "SHOW.rundown".into(),
        false => Path::new(path).with_extension("rundown"),
    };
    Err(Failure::refused(format!(
        "{} is a show's text, not a rundown: make one by `mixer make {} -o {}`",
        files::input(path),
        typed(path),
        typed(out.as_os_str())
    )))
}

/// What is to be said where a show's text is asked for and a rundown is given.
pub fn instead_of_text(path: &OsStr, bytes: &[u8]) -> Option<Failure> {
    let layers = show::stored(bytes).ok()?;
    let (name, path) = (files::input(path), typed(path));
    let words =
        format!("{name} is a rundown, not a show's text: `mixer text {path}` gives its text");
    (!layers.is_empty()).then(|| Failure::refused(words))
}

/// A stored rundown, tested by the library as far as it can be without a canvas and sources.
pub fn read(path: &OsStr) -> Result<Rundown, Failure> {
    let bytes = self::bytes(path)?;
    Rundown::from_bytes(&bytes).map_err(|refusal| refused(path, &bytes, &refusal))
}

/// The layers of a stored rundown for its text, in the order of their blocks. Here alone a table that does not suit its
/// bezel is no reason to refuse it: who has no other text mends it in this one.
pub fn layers(path: &OsStr) -> Result<Vec<(u16, Layer)>, Failure> {
    let bytes = self::bytes(path)?;
    show::stored(&bytes).map_err(|refusal| refused(path, &bytes, &refusal))
}

/// What is to be said of a stored rundown that is refused.
fn refused(path: &OsStr, rundown: &[u8], refusal: &Refusal) -> Failure {
    let case = Case {
        rundown,
        ..Case::default()
    };
    Failure::refused(format!("{}: {}", files::input(path), case.explain(refusal)))
}

/// A priority as an option's value.
pub fn priority(option: &Opt, word: &OsStr) -> Result<u16, Failure> {
    number(option, word, "a priority from 0 to 65535")
}

/// A number as an option's value.
pub fn number<T: std::str::FromStr>(option: &Opt, word: &OsStr, what: &str) -> Result<T, Failure> {
    words::value(option.name, word, what, |word| word.parse().ok())
}
