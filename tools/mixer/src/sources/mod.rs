//! The sources that a command is given: pictures, flat colours, or sizes alone.
mod items;
mod pictures;

pub use pictures::Pictures;

use crate::cli::args::{Args, Opt};
use crate::cli::failure::Failure;
use crate::files;
use crate::names::{Names, NAMES};
use crate::words::shown;
use items::Item;
use std::ffi::OsStr;
use tiglostrema::{Rundown, SourceId};

/// The option that gives one picture, and the one that gives sizes.
pub const PICTURE: &str = "--source";
pub const SIZES: &str = "--sources";

/// A command's sources, as much of them as it needs: [`Given`] without pixels, [`Pictures`] with them.
pub trait Sources: Sized {
    /// The sources of items in the order of their numbers, and the names of all.
    fn of(items: &[Item], names: Names) -> Result<Self, Failure>;

    /// What is known of them without their pixels.
    fn given(&self) -> &Given;

    /// Reads every `--source` and `--sources`, by their names or in the order in which they stand. `others` are the
    /// command's other inputs; `out` is its output, which may be none of all these files.
    fn read(args: &mut Args, others: &[&OsStr], out: Option<&OsStr>) -> Result<Self, Failure> {
        let path = args.optional(NAMES.name);
        let names = path.as_deref().map(Names::read).transpose()?;
        let names = names.unwrap_or_default();
        let items = items::all(args.all(&[PICTURE, SIZES]))?;
        let pictures = items.iter().filter_map(Item::file);
        let inputs = others.iter().copied().chain(path.as_deref());
        files::apart(&inputs.chain(pictures).collect::<Vec<_>>(), out)?;
        let (items, names) = items::in_order(items, names)?;
        Self::of(&items, names)
    }
}

/// The sources in the order of their numbers, without their pixels: sixteen of the largest would be a gigabyte, and a
/// command that paints nothing has no use for it.
#[derive(Default)]
pub struct Given {
    pub sizes: Vec<(u32, u32)>,
    pub names: Names,
}

impl Sources for Given {
    fn of(items: &[Item], names: Names) -> Result<Given, Failure> {
        let sizes = items.iter().map(|item| item.content.size());
        let sizes = sizes.collect::<Result<_, _>>()?;
        Ok(Given { sizes, names })
    }

    fn given(&self) -> &Given {
        self
    }
}

impl Given {
    /// The number of the source that an option's value means, by its number or its name. A source that is not given
    /// is refused: nothing that is said of it would be about the show.
    pub fn find(&self, option: &Opt, word: &OsStr) -> Result<SourceId, Failure> {
        let text = word.to_str().unwrap_or_default();
        let number = match text.parse() {
            Ok(number) => SourceId::new(number),
            Err(_) if show::is_name(text) => self.names.number(text)?,
            Err(_) => {
                let (name, word) = (option.name, shown(word));
                let words = format!("`{name}` takes a source's number or its name, not `{word}`");
                return Err(Failure::usage(words));
            }
        };
        match self.sizes.get(number.index()) {
            Some(_) => Ok(number),
            None => Err(Failure::refused(format!(
                "there is no {}: {}",
                self.names.source(number),
                self.which()
            ))),
        }
    }

    /// Refuses the names of another show; bytes that are no rundown are for the library to refuse.
    pub fn fit(&self, rundown: &[u8]) -> Result<(), Failure> {
        match Rundown::from_bytes(rundown) {
            Ok(rundown) => self.names.fit(&rundown),
            Err(_) => Ok(()),
        }
    }

    /// Which sources are given, in words.
    pub fn which(&self) -> String {
        match self.sizes.len() {
            0 => "no source is given".to_owned(),
            1 => "source 0 alone is given".to_owned(),
            n => format!("sources 0 to {} are given", n - 1),
        }
    }

    /// Widths and heights by turns, as the library takes them.
    pub fn table(&self) -> Vec<u32> {
        self.sizes.iter().flat_map(|&(w, h)| [w, h]).collect()
    }
}

#[cfg(test)]
mod tests {
    use super::*;
    use crate::cli::args::once;

    #[test]
    fn sources_by_number_and_name() {
        let given = Given {
            sizes: vec![(1, 1), (1, 1)],
            names: vec!["studio".to_owned(), "relay".to_owned()].into(),
        };
        let option = once("--hide");
        let find = |word: &str| given.find(&option, OsStr::new(word));
        let words = |word: &str| find(word).unwrap_err().to_string();
        assert_eq!(find("1").unwrap(), SourceId::new(1));
        assert_eq!(find("relay").unwrap(), SourceId::new(1));
        assert_eq!(
            words("2"),
            "mixer: there is no source 2: sources 0 to 1 are given"
        );
        assert!(words("rely").contains("did you mean `relay`?"));
        for word in ["-1", "1.5", "", "99999999999", "2nd"] {
            assert_eq!(find(word).unwrap_err().status(), 2, "{word}");
        }
    }
}
