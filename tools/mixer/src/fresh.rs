//! Pictures that take a source's place in mid play.
use crate::cli::args::{many, Opt};
use crate::cli::failure::Failure;
use crate::rundowns;
use crate::sources::Pictures;
use crate::words::shown;
use std::ffi::{OsStr, OsString};
use std::os::unix::ffi::OsStrExt;
use tiglostrema::{Rundown, SourceId};

/// The option that gives one.
pub const FRESH: Opt = many("--fresh");

/// A fresh picture as the command line asks for it, before anything is read: `PRIORITY:SOURCE=FILE.png`.
#[derive(Debug)]
pub struct Asked {
    priority: u16,
    /// The source's number or its name.
    source: OsString,
    pub file: OsString,
}

/// A picture that a source shows from the step of a priority on.
pub struct Fresh {
    pub priority: u16,
    pub source: SourceId,
    pub file: OsString,
    pub pixels: Vec<u32>,
}

impl Asked {
    pub fn of(value: &OsStr) -> Result<Asked, Failure> {
        let words = || {
            let (name, value) = (FRESH.name, shown(value));
            let what = "PRIORITY:SOURCE=FILE.png, as 64:1=next.png";
            Failure::usage(format!("`{name}` takes {what}, not `{value}`"))
        };
        let (priority, rest) = parted(value, b':').ok_or_else(words)?;
        let (source, file) = parted(rest, b'=').ok_or_else(words)?;
        Ok(Asked {
            priority: rundowns::priority(&FRESH, priority)?,
            source: source.to_owned(),
            file: file.to_owned(),
        })
    }

    /// Reads the picture. That there are such a source and such a layer is tested first.
    fn read(&self, sources: &Pictures, rundown: &Rundown) -> Result<Fresh, Failure> {
        let source = sources.given.find(&FRESH, &self.source)?;
        if rundown.get(self.priority).is_none() {
            return Err(self.wrong(&format!("no layer has priority {}", self.priority)));
        }
        Ok(Fresh {
            priority: self.priority,
            source,
            file: self.file.clone(),
            pixels: sources.for_source(source, &FRESH, &self.file)?,
        })
    }

    fn wrong(&self, why: &str) -> Failure {
        let [source, file] = [&self.source, &self.file].map(|word| shown(word));
        let (name, priority) = (FRESH.name, self.priority);
        Failure::refused(format!("`{name} {priority}:{source}={file}`: {why}"))
    }
}

/// Reads all that are asked for, before a layer is painted. One that would be replaced unseen is refused.
pub fn read(all: &[Asked], sources: &Pictures, rundown: &Rundown) -> Result<Vec<Fresh>, Failure> {
    let mut fresh: Vec<Fresh> = Vec::new();
    for asked in all {
        let one = asked.read(sources, rundown)?;
        let same = |other: &Fresh| (other.priority, other.source) == (one.priority, one.source);
        if fresh.iter().any(same) {
            let source = sources.given.names.source(one.source);
            return Err(asked.wrong(&format!("{source} is given twice for this step")));
        }
        fresh.push(one);
    }
    Ok(fresh)
}

/// The parts before and behind the first such byte. The second may be a file's name, which need not be UTF-8.
fn parted(word: &OsStr, by: u8) -> Option<(&OsStr, &OsStr)> {
    let mut parts = word.as_bytes().splitn(2, |byte| *byte == by);
    let (first, second) = parts.next().zip(parts.next())?;
    Some((OsStr::from_bytes(first), OsStr::from_bytes(second)))
}

#[cfg(test)]
mod tests {
    use super::*;

    #[test]
    fn the_three_parts() {
        let parts = |word: &str| {
            let asked = Asked::of(OsStr::new(word)).map_err(|failure| failure.to_string())?;
            let [source, file] = [asked.source, asked.file].map(|part| part.into_string().unwrap());
            Ok((asked.priority, source, file))
        };
        let right = |priority, source: &str, file: &str| {
            Ok::<_, String>((priority, source.to_owned(), file.to_owned()))
        };
        assert_eq!(parts("64:1=next.png"), right(64, "1", "next.png"));
        assert_eq!(parts("0:relay=a=b:c.png"), right(0, "relay", "a=b:c.png"));
        assert_eq!(parts("65535:1=4x2:red"), right(65535, "1", "4x2:red"));
        for word in ["", "64", "1=next.png", "64:next.png", "64:1", "64=1:x"] {
            let said = if word.is_empty() { "\"\"" } else { word };
            assert_eq!(
                parts(word),
                Err(format!(
                    "mixer: `--fresh` takes PRIORITY:SOURCE=FILE.png, as 64:1=next.png, not `{said}`"
                ))
            );
        }
        assert_eq!(
            parts("65536:1=next.png"),
            Err("mixer: `--fresh` takes a priority from 0 to 65535, not `65536`".to_owned())
        );
    }
}
