//! The layer that a stain is held against: the interpreter.
use crate::cli::args::Opt;
use crate::cli::failure::Failure;
use crate::names::Names;
use crate::words::shown;
use show::{boxes, describe};
use std::ffi::OsStr;
use tiglostrema::{IRect, Layer, Rundown, SourceId, Stain};

/// A layer and the pixels that it may paint on its canvas, of which there is at least one.
pub struct Interpreter {
    /// `priority 64, copy from source 1 (signer)`.
    pub layer: String,
    pub area: IRect,
    /// The source that it copies.
    pub source: Option<SourceId>,
}

impl Interpreter {
    /// The layer of this priority. One that paints nothing is refused: that no source reaches it would be said of
    /// nobody.
    pub fn find(
        rundown: &Rundown,
        priority: u16,
        sizes: &boxes::Sizes,
        names: &Names,
    ) -> Result<Interpreter, Failure> {
        let none = || Failure::refused(format!("no layer has priority {priority}"));
        let mut layers = rundown.iter().zip(boxes::of(rundown, sizes));
        let found = layers.find(|((p, _), _)| *p == priority);
        let ((_, layer), area) = found.ok_or_else(none)?;
        let area = area.filter(|area| !area.is_empty());
        let source = layer.source();
        let from = source.map_or(String::new(), |s| format!(" from {}", names.source(s)));
        let layer = format!("priority {priority}, {}{from}", describe::kind(&layer));
        let area = area.ok_or_else(|| unseen(&layer, "it paints nothing on this canvas"))?;
        Ok(Interpreter {
            layer,
            area,
            source,
        })
    }

    /// Refuses one that other layers hide, as well: where its own source, of which this is the stain, reaches no
    /// pixel of its box.
    pub fn seen(self, own: &Stain) -> Result<Interpreter, Failure> {
        match own.count_in(self.area) {
            0 => Err(unseen(&self.layer, "the layers above it hide all of it")),
            _ => Ok(self),
        }
    }
}

fn unseen(layer: &str, why: &str) -> Failure {
    Failure::refused(format!("the interpreter, {layer}: {why}"))
}

/// The priority that an option's value means: the number itself, or a source's name for the one layer that copies
/// that source.
pub fn priority(
    option: &Opt,
    word: &OsStr,
    names: &Names,
    rundown: &Rundown,
) -> Result<u16, Failure> {
    let text = word.to_str().unwrap_or_default();
    if let Ok(priority) = text.parse() {
        return Ok(priority);
    }
    if !show::is_name(text) {
        let (option, word) = (option.name, shown(word));
        return Err(Failure::usage(format!(
            "`{option}` takes a priority from 0 to 65535 or a source's name, not `{word}`"
        )));
    }
    let number = names.number(text)?;
    let copies = |(_, layer): &(u16, Layer)| layer.source() == Some(number);
    let layers = rundown.in_playing_order().filter(copies);
    let priorities: Vec<u16> = layers.map(|(priority, _)| priority).collect();
    let source = names.source(number);
    match priorities[..] {
        [priority] => Ok(priority),
        [] => Err(Failure::refused(format!("no layer copies {source}"))),
        _ => Err(Failure::refused(format!(
            "the layers of priority {} copy {source}: `{}` takes one priority of these",
            listed(&priorities),
            option.name
        ))),
    }
}

/// `28 and 64`, or `5, 28 and 64`.
fn listed(priorities: &[u16]) -> String {
    let words: Vec<String> = priorities.iter().map(u16::to_string).collect();
    match words.split_last() {
        Some((last, rest)) if !rest.is_empty() => format!("{} and {last}", rest.join(", ")),
        _ => words.concat(),
    }
}

#[cfg(test)]
mod tests {
    use super::*;
    use crate::cli::args::once;

    const TEXT: &str = "layer 1 copy; source 0; at 0 0\nlayer 2 scaled; source 2; rect 0 0 4 4\n\
                        layer 7 copy; source 2; at 90 0\nlayer 8 fill; rect 0 0 1 1; colour red";

    fn found(word: &str) -> Result<u16, String> {
        let names = Names::from(["signer", "label", "call"].map(str::to_owned).to_vec());
        let rundown = show::make(TEXT).unwrap().rundown;
        priority(&once("--interpreter"), OsStr::new(word), &names, &rundown)
            .map_err(|failure| failure.to_string())
    }

    #[test]
    fn layers_by_priority_and_by_name() {
        assert_eq!(found("7"), Ok(7));
        assert_eq!(found("signer"), Ok(1));
        let words = |word| found(word).unwrap_err();
        assert_eq!(words("label"), "mixer: no layer copies source 1 (label)");
        assert_eq!(
            words("call"),
            "mixer: the layers of priority 2 and 7 copy source 2 (call): \
             `--interpreter` takes one priority of these"
        );
        assert!(words("singer").contains("did you mean `signer`?"));
        assert!(words("65536").contains("a priority from 0 to 65535"));
    }

    #[test]
    fn an_interpreter_is_seen() {
        let sizes = boxes::Sizes {
            canvas: Some((8, 8)),
            sources: &[(4, 4), (1, 1), (1, 1)],
        };
        let rundown = show::make(TEXT).unwrap().rundown;
        let names = Names::from(vec!["signer".to_owned()]);
        let find = |priority| Interpreter::find(&rundown, priority, &sizes, &names);
        let words = |priority| find(priority).err().unwrap().to_string();
        let signer = find(1).ok().unwrap();
        assert_eq!(signer.layer, "priority 1, copy from source 0 (signer)");
        assert_eq!(find(8).ok().unwrap().layer, "priority 8, fill");
        assert_eq!(signer.area, IRect::new(0, 0, 4, 4));
        assert!(
            words(7).ends_with("priority 7, copy from source 2: it paints nothing on this canvas")
        );
        assert_eq!(words(9), "mixer: no layer has priority 9");
    }

    #[test]
    fn lists_in_words() {
        assert_eq!(listed(&[5, 28, 64]), "5, 28 and 64");
    }
}
