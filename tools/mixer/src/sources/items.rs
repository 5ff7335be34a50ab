//! The sources of a command line, before their files are read.
use super::{PICTURE, SIZES};
use crate::cli::failure::Failure;
use crate::names::{split, Names};
use crate::{files, size, words};
use std::ffi::{OsStr, OsString};
use tiglostrema::SourceId;

/// A source, with its name where it is given one.
#[derive(Debug)]
pub struct Item {
    pub name: Option<String>,
    pub content: Content,
}

/// What a source shows.
#[derive(Debug)]
pub enum Content {
    /// The picture in a file.
    File(OsString),
    /// A size in one colour.
    Flat((u32, u32), u32),
}

impl Item {
    /// The file that is read for it.
    pub fn file(&self) -> Option<&OsStr> {
        match &self.content {
            Content::File(path) => Some(path),
            Content::Flat(..) => None,
        }
    }
}

impl Content {
    /// `FILE.png`, or `WIDTHxHEIGHT:COLOUR` for a flat picture.
    pub fn of(option: &str, value: &OsStr) -> Result<Content, Failure> {
        let Some((size, word)) = flat(value) else {
            return Ok(Content::File(value.to_owned()));
        };
        let pixel = words::pixel(option, value, word)?;
        Ok(Content::Flat(size, pixel))
    }

    /// Its width and height. Of a file no pixel is read.
    pub fn size(&self) -> Result<(u32, u32), Failure> {
        match self {
            Content::Flat(size, _) => Ok(*size),
            Content::File(path) => files::read_picture_size(path),
        }
    }
}

/// The size and the colour's word of a flat picture.
fn flat(value: &OsStr) -> Option<((u32, u32), &str)> {
    let (size, colour) = value.to_str()?.split_once(':')?;
    Some((size::parse(size)?, colour))
}

/// The sources of the options' values, each with the option's name.
pub fn all(options: Vec<(&str, OsString)>) -> Result<Vec<Item>, Failure> {
    let mut items = Vec::new();
    for (option, value) in options {
        match option {
            SIZES => items.extend(sizes(&value)?),
            _ => items.push(picture(&value)?),
        }
    }
    Ok(items)
}

fn picture(value: &OsStr) -> Result<Item, Failure> {
    let (name, value) = split(value);
    Ok(Item {
        name: name.map(str::to_owned),
        content: Content::of(PICTURE, value)?,
    })
}

/// `WIDTHxHEIGHT,WIDTHxHEIGHT` and so on, each perhaps with its name. One that is left out is refused: the sources
/// behind it would get another number.
fn sizes(value: &OsStr) -> Result<Vec<Item>, Failure> {
    let text = value.to_string_lossy();
    let words = text.split(',').map(str::trim);
    let item = |word| {
        let (name, size) = split(OsStr::new(word));
        Ok(Item {
            name: name.map(str::to_owned),
            content: Content::Flat(size::option(SIZES, size)?, 0),
        })
    };
    words.map(item).collect()
}

/// The items in the order of their sources' numbers, and the names of all sources. Without known names an item's own
/// are labels, and the order is the one in which the items stand.
pub fn in_order(items: Vec<Item>, names: Names) -> Result<(Vec<Item>, Names), Failure> {
    let labels: Vec<String> = items.iter().filter_map(|i| i.name.clone()).collect();
    let twice = (1..labels.len()).find(|i| labels[..*i].contains(&labels[*i]));
    if let Some(i) = twice {
        let name = show::shown(&labels[i]);
        return Err(Failure::refused(format!("source `{name}` is given twice")));
    }
    if !labels.is_empty() && labels.len() < items.len() {
        let words = "some sources are given with a name and some without: name all of them or none";
        return Err(Failure::refused(words));
    }
    match (names.is_empty(), labels.is_empty()) {
        (true, _) => Ok((items, labels.into())),
        (false, true) => by_place(items, names),
        (false, false) => by_name(items, names),
    }
}

/// Without names of their own: as many as there are known names, or none at all.
fn by_place(items: Vec<Item>, names: Names) -> Result<(Vec<Item>, Names), Failure> {
    match items.len() {
        n if n > 0 && n < names.len() => Err(missing(&names, n)),
        _ => Ok((items, names)),
    }
}

fn by_name(items: Vec<Item>, names: Names) -> Result<(Vec<Item>, Names), Failure> {
    let mut places: Vec<Option<Item>> = Vec::new();
    places.resize_with(names.len(), || None);
    for item in items {
        let number = names.number(item.name.as_deref().unwrap_or_default())?;
        places[number.index()] = Some(item);
    }
    match places.iter().position(Option::is_none) {
        Some(number) => Err(missing(&names, number)),
        None => Ok((places.into_iter().flatten().collect(), names)),
    }
}

fn missing(names: &Names, number: usize) -> Failure {
    let source = names.source(SourceId::new(number as u32));
    Failure::refused(format!("{source} is not given"))
}

#[cfg(test)]
mod tests {
    use super::*;

    fn names(line: &str) -> Names {
        let all: Vec<String> = line.split_whitespace().map(str::to_owned).collect();
        all.into()
    }

    /// The sources' sizes in their order and the names, or the refusal.
    fn ordered(line: &str, known: &str) -> Result<String, String> {
        let options = line
            .split_whitespace()
            .map(|word| match word.contains(':') {
                true => ("--source", word.into()),
                false => (SIZES, word.into()),
            });
        let known = names(known);
        let items = all(options.collect()).and_then(|items| in_order(items, known));
        let (items, names) = items.map_err(|failure| failure.to_string())?;
        let sizes = items.iter().map(|item| match item.content {
            Content::Flat((w, h), _) => format!("{w}x{h}"),
            Content::File(_) => "file".to_owned(),
        });
        let sizes: Vec<String> = sizes.collect();
        let names = (0..names.len()).map(|n| names.short(SourceId::new(n as u32)));
        let names: Vec<String> = names.collect();
        Ok(format!("{} / {}", sizes.join(" "), names.join(" ")))
    }

    #[test]
    fn flat_pictures() {
        let of = |word: &str| match Content::of(PICTURE, OsStr::new(word)).unwrap() {
            Content::Flat((w, h), pixel) => format!("{w} {h} {pixel:06X}"),
            Content::File(path) => path.into_string().unwrap(),
        };
        assert_eq!(of("4x2:#112233"), "4 2 112233");
        assert_eq!(of("4x2:white"), "4 2 FFFFFF");
        for file in ["a.png", "c:a.png", "./4x2:a.png"] {
            assert_eq!(of(file), file);
        }
        let wrong = Content::of(PICTURE, OsStr::new("4x2:whit")).unwrap_err();
        assert_eq!(wrong.status(), 2);
        assert!(wrong.to_string().ends_with("did you mean `white`?"));
    }

    #[test]
    fn known_names_put_sources_in_order() {
        let order = |line| ordered(line, "a b c").unwrap();
        assert_eq!(order("c=3x3:red a=1x1,b=2x2"), "1x1 2x2 3x3 / a 0 b 1 c 2");
        assert_eq!(order("1x1,2x2,3x3,4x4"), "1x1 2x2 3x3 4x4 / a 0 b 1 c 2");
        assert_eq!(order(""), " / a 0 b 1 c 2");
    }

    #[test]
    fn without_known_names_the_order_stays() {
        assert_eq!(ordered("b=2x2:red a=1x1", "").unwrap(), "2x2 1x1 / b 0 a 1");
        assert_eq!(ordered("2x2,1x1", "").unwrap(), "2x2 1x1 / ");
    }

    #[test]
    fn sources_that_do_not_fit_their_names() {
        let words = |line, known| ordered(line, known).unwrap_err();
        assert_eq!(
            words("a=1x1,c=3x3", "a b c"),
            "mixer: source 1 (b) is not given"
        );
        assert_eq!(
            words("1x1,2x2", "a b c"),
            "mixer: source 2 (c) is not given"
        );
        assert_eq!(
            words("a=1x1,a=2x2", "a b"),
            "mixer: source `a` is given twice"
        );
        assert_eq!(words("a=1x1,a=2x2", ""), "mixer: source `a` is given twice");
        assert!(words("a=1x1,2x2", "").contains("name all of them or none"));
        assert!(words("studo=1x1", "studio").contains("did you mean `studio`?"));
        assert!(words("a=1x", "a").contains("takes a size as 1280x720, not `1x`"));
        assert!(words("1x1,,2x2", "").contains("takes a size as 1280x720, not `\"\"`"));
    }
}
