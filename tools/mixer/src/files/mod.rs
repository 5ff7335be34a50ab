//! Files, with the name of the file in every message. `-` is standard input, or standard output.
mod apart;
mod standard;
mod whole;

pub use apart::apart;
pub use standard::{is_input, is_output};

use crate::cli::failure::Failure;
use crate::progress::Step;
use crate::rundowns;
use crate::words::shown;
use picture::Picture;
use std::ffi::OsStr;
use std::fs::File;
use std::io::{self, Read};
use std::path::Path;

/// The longest file that is read. A picture of 4096 by 4096 pixels needs half of it, uncompressed and with 16 bits
/// a channel; a device that never ends is not read until the memory is full.
const MOST_BYTES: u64 = 1 << 28;

/// How messages name a file that is read.
pub fn input(path: &OsStr) -> String {
    match standard::is_input(path) {
        true => "standard input".to_owned(),
        false => shown(path),
    }
}

/// How messages name a file that is written.
pub fn output(path: &OsStr) -> String {
    match standard::is_output(path) {
        true => "standard output".to_owned(),
        false => shown(path),
    }
}

/// All bytes of a file.
pub fn read(path: &OsStr) -> Result<Vec<u8>, Failure> {
    let bytes = match standard::is_input(path) {
        true => limited(io::stdin().lock(), MOST_BYTES),
        false => File::open(path).and_then(|file| limited(file, MOST_BYTES)),
    };
    bytes.map_err(|error| failed("read", &input(path), &error))
}

/// A file as text.
pub fn read_text(path: &OsStr) -> Result<String, Failure> {
    let bytes = read(path)?;
    if let Some(failure) = rundowns::instead_of_text(path, &bytes) {
        return Err(failure);
    }
    let words = |why| Failure::refused(format!("{}{why}", input(path)));
    String::from_utf8(bytes).map_err(|error| words(no_text(error.as_bytes())))
}

/// What is wrong with bytes that are no UTF-8, behind a file's name: the line, or that it is another encoding.
fn no_text(bytes: &[u8]) -> String {
    if bytes.starts_with(b"\xff\xfe") || bytes.starts_with(b"\xfe\xff") {
        return ": this text is UTF-16; save it as UTF-8".to_owned();
    }
    let right = std::str::from_utf8(bytes).map_or_else(|error| error.valid_up_to(), str::len);
    let line = 1 + bytes[..right].iter().filter(|byte| **byte == b'\n').count();
    format!(":{line}: not UTF-8 text")
}

/// Writes a file as a whole, or leaves what was there.
pub fn write(path: &OsStr, bytes: &[u8]) -> Result<(), Failure> {
    let written = match standard::is_output(path) {
        true => standard::write(bytes),
        false => whole::write(Path::new(path), bytes),
    };
    written.map_err(|error| failed("write", &output(path), &error))
}

/// The picture in a PNG file.
pub fn read_picture(path: &OsStr) -> Result<Picture, Failure> {
    from_png(path, Picture::decode)
}

/// The width and the height of the picture in a PNG file, without its pixels.
pub fn read_picture_size(path: &OsStr) -> Result<(u32, u32), Failure> {
    from_png(path, Picture::size)
}

/// What a PNG file's bytes are made into.
fn from_png<T>(
    path: &OsStr,
    make: impl Fn(&[u8]) -> Result<T, picture::Error>,
) -> Result<T, Failure> {
    let _step = Step::new(format!("Reading {}", input(path)));
    let words = |error| Failure::refused(format!("{}: {error}", input(path)));
    make(&read(path)?).map_err(words)
}

/// Writes a PNG file, as [`write()`] does.
pub fn write_picture(path: &OsStr, picture: &Picture) -> Result<(), Failure> {
    let words = |error| Failure::refused(format!("{}: {error}", output(path)));
    write(path, &picture.encode().map_err(words)?)
}

/// All bytes, unless there are more than `most`.
fn limited(reader: impl Read, most: u64) -> io::Result<Vec<u8>> {
    let mut bytes = Vec::new();
    reader.take(most + 1).read_to_end(&mut bytes)?;
    match bytes.len() as u64 > most {
        true => Err(io::Error::other(format!("it is longer than {most} bytes"))),
        false => Ok(bytes),
    }
}

fn failed(what: &str, name: &str, error: &io::Error) -> Failure {
    Failure::refused(match error.kind() {
        io::ErrorKind::NotFound if what == "read" => format!("{name}: there is no such file"),
        io::ErrorKind::NotFound => format!("{name}: there is no such folder"),
        io::ErrorKind::PermissionDenied => format!("{name}: not allowed to {what} it"),
        io::ErrorKind::IsADirectory => format!("{name}: this is a folder"),
        _ => format!("{name}: cannot {what} it: {error}"),
    })
}

#[cfg(test)]
mod tests {
    use super::*;

    #[test]
    fn a_reader_that_never_ends_is_left() {
        assert_eq!(limited(&b"abc"[..], 3).unwrap(), b"abc");
        assert!(limited(&b"abcd"[..], 3).is_err());
        assert!(limited(io::repeat(0), 9).is_err());
    }

    #[test]
    fn a_hyphen_is_named_in_words() {
        assert_eq!(input(OsStr::new("-")), "standard input");
        assert_eq!(output(OsStr::new("-")), "standard output");
        assert_eq!(output(OsStr::new("./-")), "./-");
    }
}
