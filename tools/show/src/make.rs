//! From a show's text to its rundown.
use crate::describe;
use crate::problem::Problem;
use crate::statement::Word;
use crate::text::{parse, Entry};
use tiglostrema::{Cause, Refusal, Rundown};

/// What a show's text gives.
#[derive(Debug)]
pub struct Made<'a> {
    /// The rundown. Its blocks stand in ascending priority, in whatever order the text has the layers.
    pub rundown: Rundown,
    /// The names of source 0, 1 and so on, as far as they are given.
    pub names: Vec<&'a str>,
    /// What may be meant, but is likely a slip.
    pub warnings: Vec<Problem>,
}

/// The rundown of a show's text.
///
/// ```
/// let made = show::make("sources studio\nlayer 10 copy; source studio; at 0 0")?;
/// assert_eq!(made.rundown.len(), 1);
/// assert_eq!(made.names, ["studio"]);
/// assert_eq!(made.warnings, []);
/// # Ok::<(), Vec<show::Problem>>(())
/// ```
///
/// # Errors
///
/// All that is wrong with the text, and every layer that the library refuses.
pub fn make(text: &str) -> Result<Made<'_>, Vec<Problem>> {
    let show = parse(text);
    let mut problems = show.problems;
    let rundown = add_all(&show.entries, &mut problems);
    match problems.is_empty() {
        true => Ok(Made {
            rundown,
            names: show.names,
            warnings: show.warnings,
        }),
        false => Err(problems),
    }
}

/// Adds every layer by the library, which alone says what it refuses, and where a block stands.
fn add_all(entries: &[Entry<'_>], problems: &mut Vec<Problem>) -> Rundown {
    let mut rundown = Rundown::new();
    for (i, entry) in entries.iter().enumerate() {
        let Err(refusal) = rundown.add(entry.priority, entry.layer) else {
            continue;
        };
        let (word, words) = words(&refusal, entry, &entries[..i]);
        problems.push(Problem::at(word, words));
        if refusal.cause() == Cause::RundownFull {
            break;
        }
    }
    rundown
}

/// A refusal in words, with what the text tells about it, and the word that it is about.
fn words<'a>(refusal: &Refusal, entry: &Entry<'a>, before: &[Entry<'_>]) -> (Word<'a>, String) {
    let cause = refusal.cause();
    let kind = describe::kind(&entry.layer);
    let (word, more) = match cause {
        Cause::DuplicatePriority => {
            let first = before.iter().find(|e| e.priority == entry.priority);
            let line = first.map_or(0, |e| e.kind.line);
            let priority = entry.priority;
            let more = format!("; the layer in line {line} has priority {priority} as well");
            (entry.number, more)
        }
        Cause::RundownFull => (entry.kind, format!("; {} are held", refusal.beside())),
        _ => (entry.kind, String::new()),
    };
    let number = cause.number();
    let words = format!("this {kind} layer is refused: {cause} (cause {number}){more}");
    (word, words)
}

#[cfg(test)]
mod tests {
    use super::*;

    fn said(text: &str) -> Vec<String> {
        let told = |p: Problem| format!("{}:{}: {}", p.line, p.column, p.message);
        make(text).unwrap_err().into_iter().map(told).collect()
    }

    #[test]
    fn a_priority_twice_is_pointed_at() {
        assert_eq!(
            said("layer 7 frame; rect 0 0 1 1; tag usb\n\nlayer 7 frame; rect 0 0 1 1; tag usb"),
            [
                "3:7: this frame layer is refused: an earlier block has the same priority (cause 8); \
                 the layer in line 1 has priority 7 as well"
            ]
        );
    }

    #[test]
    fn a_layer_too_many() {
        let line = |n: u16| format!("layer {n} frame; rect 0 0 1 1; tag usb\n");
        let text: String = (0..258).map(line).collect();
        assert_eq!(
            said(&text),
            [
                "257:11: this frame layer is refused: there is no room for another layer \
                 (cause 12); 256 are held"
            ]
        );
        let text: String = (0..256).map(line).collect();
        assert_eq!(make(&text).unwrap().rundown.len(), 256);
    }

    #[test]
    fn blocks_ascend_in_whatever_order_the_text_has_them() {
        let line = |n: u16| {
            format!(
                "layer {n} frame; rect 0 0 1 1; tag usb; clip 0 0 {} 9\n",
                n / 4
            )
        };
        let ascending = [0, 9, 10, 255, 256, 32767, 32768, 65535];
        let [one, other] = [0, 3].map(|turned| {
            let mut order = ascending;
            order.rotate_left(turned);
            let text: String = order.into_iter().map(line).collect();
            make(&text).unwrap().rundown
        });
        assert!(other.iter().map(|(priority, _)| priority).eq(ascending));
        assert_eq!(one, other);
    }

    #[test]
    fn names_and_warnings_are_kept() {
        let made = make("sources a\nlayer 1 copy; source 3; at 0 0").unwrap();
        assert_eq!(made.names, ["a"]);
        assert_eq!(made.warnings.len(), 1);
    }
}
