//! The names of sources: from a show's text, or given with the pictures.
use crate::cli::args::{once, Opt};
use crate::cli::failure::Failure;
use crate::files;
use show::suggest::did_you_mean;
use show::{count, is_name, report, shown};
use std::ffi::OsStr;
use std::os::unix::ffi::OsStrExt;
use tiglostrema::{Layer, Rundown, SourceId};

/// The option that gives a text with the sources' names.
pub const NAMES: Opt = once("--names");

/// The names of source 0, 1 and so on; none where none are given.
#[derive(Default)]
pub struct Names {
    all: Vec<String>,
    text: Text,
}

/// What else the text says of sources.
#[derive(Default)]
struct Text {
    file: String,
    /// Whether it has layers, so that it is the text of a whole show.
    layers: bool,
    /// The layers that copy a source: their priorities, and the source's number.
    copies: Vec<(u16, SourceId)>,
}

impl From<Vec<String>> for Names {
    fn from(all: Vec<String>) -> Names {
        Names {
            all,
            text: Text::default(),
        }
    }
}

impl Names {
    /// The names that a show's text gives to its sources.
    pub fn read(path: &OsStr) -> Result<Names, Failure> {
        let text = files::read_text(path)?;
        let file = files::input(path);
        let made = show::make(&text).map_err(|problems| {
            let words = report(&file, &text, &problems);
            let count = count::of(problems.len(), "problem");
            Failure::Report(format!("{words}{count}, nothing done"))
        })?;
        if made.names.is_empty() {
            let words = "it names no source, as a line `sources NAME ...` would";
            return Err(Failure::refused(format!("{file}: {words}")));
        }
        let layers = made.rundown.in_playing_order();
        let copies = layers.filter_map(|(priority, layer)| Some((priority, layer.source()?)));
        Ok(Names {
            all: made.names.into_iter().map(str::to_owned).collect(),
            text: Text {
                file,
                layers: !made.rundown.is_empty(),
                copies: copies.collect(),
            },
        })
    }

    /// The names of source 0, 1 and so on.
    pub fn all(&self) -> &[String] {
        &self.all
    }

    /// How many sources have a name.
    pub fn len(&self) -> usize {
        self.all.len()
    }

    /// Whether no source has a name.
    pub fn is_empty(&self) -> bool {
        self.all.is_empty()
    }

    /// The names with their numbers where no text gives them, so that the order on the command line did: `call 0, ...`.
    pub fn by_order(&self) -> Option<String> {
        let numbers = 0..self.all.len() as u32;
        let all: Vec<String> = numbers.map(|n| self.short(SourceId::new(n))).collect();
        (self.text.file.is_empty() && !all.is_empty()).then(|| all.join(", "))
    }

    /// Refuses the names of another show, which would point at the wrong sources. A text that has layers has every
    /// layer of the rundown that copies a source, from the same one; what was taken out of the rundown it may have.
    pub fn fit(&self, rundown: &Rundown) -> Result<(), Failure> {
        let mut copies = rundown
            .in_playing_order()
            .filter_map(|(priority, layer)| {
                Some((priority, layer.source()?, self.copied(priority)))
            })
            .filter(|(_, here, there)| *there != Some(*here));
        match copies.next().filter(|_| self.text.layers) {
            None => Ok(()),
            Some(copy) => Err(Failure::refused(format!(
                "{}: {}: these are the names of another show",
                self.text.file,
                self.difference(copy)
            ))),
        }
    }

    /// What the text has in place of a layer that copies a source.
    fn difference(&self, (priority, here, there): (u16, SourceId, Option<SourceId>)) -> String {
        let (here, there) = (self.source(here), there.map(|there| self.source(there)));
        match there {
            Some(there) => {
                format!("its layer {priority} copies {there}, and the rundown's copies {here}")
            }
            None => {
                format!("the rundown's layer {priority} copies {here}, and it has no such layer")
            }
        }
    }

    /// The source that the text's layer of this priority copies.
    fn copied(&self, priority: u16) -> Option<SourceId> {
        let mut copies = self.text.copies.iter();
        copies
            .find(|(p, _)| *p == priority)
            .map(|(_, source)| *source)
    }

    /// The number of the source that has this name.
    pub fn number(&self, name: &str) -> Result<SourceId, Failure> {
        let place = self.all.iter().position(|known| known == name);
        place
            .map(|place| SourceId::new(place as u32))
            .ok_or_else(|| {
                let name = shown(name);
                Failure::refused(match self.all.is_empty() {
                    true => format!("no source is called `{name}`: {HOW}"),
                    false => format!("no source is called `{name}`{}", self.near(&name)),
                })
            })
    }

    /// The name that was meant, or all of them.
    fn near(&self, name: &str) -> String {
        let known: Vec<String> = self.all.iter().map(|n| shown(n)).collect();
        let known: Vec<&str> = known.iter().map(String::as_str).collect();
        match did_you_mean(name, &known) {
            near if near.is_empty() => format!("; the names are {}", known.join(", ")),
            near => near,
        }
    }

    /// A source in words, with its name where it has one.
    pub fn source(&self, number: SourceId) -> String {
        match self.all.get(number.index()) {
            Some(name) => format!("source {number} ({})", shown(name)),
            None => format!("source {number}"),
        }
    }

    /// The source of a layer for a column of sources.
    pub fn column(&self, layer: &Layer) -> String {
        let source = layer.source();
        source.map_or("-".to_owned(), |source| self.short(source))
    }

    /// A source in short, its name before its number.
    pub fn short(&self, number: SourceId) -> String {
        match self.all.get(number.index()) {
            Some(name) => format!("{} {number}", shown(name)),
            None => number.to_string(),
        }
    }
}

const HOW: &str = "names are given by `--names FILE` or by `--source NAME=FILE`";

/// `NAME=VALUE` as its two parts; `./a=b.png` is a file.
pub fn split(word: &OsStr) -> (Option<&str>, &OsStr) {
    let mut parts = word.as_bytes().splitn(2, |byte| *byte == b'=');
    let name = parts.next().and_then(|part| std::str::from_utf8(part).ok());
    match (name, parts.next()) {
        (Some(name), Some(value)) if is_name(name) => (Some(name), OsStr::from_bytes(value)),
        _ => (None, word),
    }
}

#[cfg(test)]
mod tests {
    use super::*;

    fn names() -> Names {
        Names::from(["studio", "relay", "label"].map(str::to_owned).to_vec())
    }

    #[test]
    fn parts_of_a_word() {
        let part = |word: &'static str| {
            let (name, value) = split(OsStr::new(word));
            (name.unwrap_or("-"), value.to_str().unwrap())
        };
        assert_eq!(part("relay=a.png"), ("relay", "a.png"));
        assert_eq!(part("Kamera_2-é=4x2:red"), ("Kamera_2-é", "4x2:red"));
        assert_eq!(part("a=b=c.png"), ("a", "b=c.png"));
        for word in ["./a=b.png", "cam.2=c.png", "2=c.png", "=c.png", "relay"] {
            assert_eq!(part(word), ("-", word));
        }
    }

    #[test]
    fn numbers_of_names() {
        let words = |name: &str, names: &Names| names.number(name).unwrap_err().to_string();
        assert_eq!(names().number("relay").unwrap(), SourceId::new(1));
        assert_eq!(
            words("rely", &names()),
            "mixer: no source is called `rely`; did you mean `relay`?"
        );
        assert_eq!(
            words("interpreter", &names()),
            "mixer: no source is called `interpreter`; the names are studio, relay, label"
        );
        assert_eq!(
            words("x", &Names::default()),
            format!("mixer: no source is called `x`: {HOW}")
        );
    }

    #[test]
    fn names_of_another_show_are_refused() {
        let mut names = names();
        names.text.file = "a.txt".to_owned();
        names.text.layers = true;
        names.text.copies = [(1, 0), (7, 1), (9, 2)]
            .map(|(p, s)| (p, SourceId::new(s)))
            .to_vec();
        let fit = |text: &str| names.fit(&show::make(text).unwrap().rundown);
        assert!(fit("layer 1 copy; source 0; at 0 0").is_ok());
        assert!(fit("layer 7 fill; rect 0 0 1 1; colour red").is_ok());
        let words = fit("layer 2 copy; source 2; at 0 0").unwrap_err();
        assert_eq!(
            words.to_string(),
            "mixer: a.txt: the rundown's layer 2 copies source 2 (label), and it has no such layer: \
             these are the names of another show"
        );
        let words = fit("layer 7 scaled; source 0; rect 0 0 1 1").unwrap_err();
        assert_eq!(
            words.to_string(),
            "mixer: a.txt: its layer 7 copies source 1 (relay), and the rundown's copies \
             source 0 (studio): these are the names of another show"
        );
    }

    #[test]
    fn sources_in_words() {
        assert_eq!(names().source(1.into()), "source 1 (relay)");
        assert_eq!(names().source(3.into()), "source 3");
        assert_eq!(names().short(1.into()), "relay 1");
        assert_eq!(names().short(3.into()), "3");
    }
}
