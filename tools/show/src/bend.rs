//! Displacement tables.
use crate::fields::Fields;
use crate::number;
use crate::ranges::{self, Range};
use crate::statement::Word;
use tiglostrema::{Cause, Layer, Rundown, DISPLACEMENT_LEN};

/// A bezel has to be wider than this for its table to be read.
const FLAT: f32 = 0.5;

/// How far the picture is bent at each depth of the bezel: 33 numbers, or a curve that falls from a number
/// to 0, `linear` straight and `round` steep at the edge.
pub fn displacement(f: &mut Fields<'_>, bezel: f32) -> [f32; DISPLACEMENT_LEN] {
    let mut table = [0.0; DISPLACEMENT_LEN];
    let Some(field) = f.take("table") else {
        return table;
    };
    let words = &field.values;
    match words.first().map(|w| w.text) {
        Some(form @ ("linear" | "round")) if words.len() == 2 => {
            let from = entries(f, &words[1..], bezel).map_or(0.0, |n| n[0]);
            for (i, entry) in table.iter_mut().enumerate() {
                let left = (DISPLACEMENT_LEN - 1 - i) as f32 / (DISPLACEMENT_LEN - 1) as f32;
                *entry = from * if form == "round" { left * left } else { left };
            }
        }
        _ if words.len() == DISPLACEMENT_LEN => {
            if let Some(numbers) = entries(f, words, bezel) {
                table.copy_from_slice(&numbers);
            }
        }
        _ => f.problem(
            field.name,
            "expected `table` with 33 numbers, `table linear FROM` or `table round FROM`",
        ),
    }
    table
}

/// A table's entries from the first on. Of those that are above what the bezel allows the first alone is pointed at: in
/// a table from a wider panel most are.
fn entries(f: &mut Fields<'_>, words: &[Word<'_>], bezel: f32) -> Option<Vec<f32>> {
    let block = f.block;
    let numbers = f.each(words, |place, word| entry(place, word, bezel, block));
    let is_above = |(place, word): &(usize, &Word)| {
        let value = any(word.text).unwrap_or_default();
        *place < DISPLACEMENT_LEN - 1 && above(value, bezel)
    };
    let mut torn = words.iter().enumerate().filter(is_above);
    let Some((place, word)) = torn.next() else {
        return numbers;
    };
    let more = match torn.count() {
        0 => String::new(),
        1 => "; 1 more entry is too large".to_owned(),
        n => format!("; {n} more entries are too large"),
    };
    let found = found(place, word.text, bezel, block);
    f.problem(*word, format!("{found}{more}"));
    None
}

/// An entry, but for whether it is above what the bezel allows. Where the bezel is too narrow for the table to be read,
/// it may have any bits; so that a text can say what such a block holds, they are taken as `0x7FC00000`.
fn entry(place: usize, word: &str, bezel: f32, block: usize) -> Result<f32, String> {
    let value = any(word).ok_or_else(|| format!("expected a number, found `{word}`"))?;
    if bezel <= FLAT {
        return Ok(value);
    }
    if place == DISPLACEMENT_LEN - 1 && value != 0.0 {
        return Err(format!("`table` ends with 0, found `{word}`"));
    }
    match value >= 0.0 {
        true => Ok(value),
        false => Err(found(place, word, bezel, block)),
    }
}

/// A number, by its digits or by its bits.
fn any(word: &str) -> Option<f32> {
    number::read(word).or_else(|| number::of_bits(word))
}

/// Whether an entry is above what the bezel allows; where no table is read, none is.
fn above(value: f32, bezel: f32) -> bool {
    bezel > FLAT && f64::from(value) > ranges::entry(bezel).most
}

/// What is to be said of an entry of a text that the bezel does not allow.
fn found(place: usize, word: &str, bezel: f32, block: usize) -> String {
    let takes = takes(bezel);
    format!("{takes}, found `{word}` as entry {place} of block {block}")
}

/// What the entries of a table may be with a bezel. The most is told by the shortest word that is read as that very
/// float, so that it passes when it is typed: with a bezel of 0.9 that is 1.4399999, and 1.44 would not.
fn takes(bezel: f32) -> String {
    let Range { least, most } = ranges::entry(bezel);
    let (most, bezel) = (number::show(most as f32), number::show(bezel));
    format!("`table` takes {least} to {most} with a bezel of {bezel}")
}

/// What is wrong with a layer that the library refuses because its table does not suit its bezel, in words: the first
/// entry that is above what the bezel allows, counted from 0. Nothing where it suits.
///
/// ```
/// use tiglostrema::{Glass, Rect};
///
/// let mut table = [0.0; 33];
/// table[2] = 1.44;
/// let panel = Glass::new(Rect::new(0.0, 0.0, 9.0, 9.0), 8.0);
/// let words = "`table` takes 0 to 1.4399999 with a bezel of 0.9, and its entry 2 is 1.44";
/// assert_eq!(show::torn(&panel.with_bezel(0.9, table).into()).as_deref(), Some(words));
/// table[2] = 1.4399999;
/// assert_eq!(show::torn(&panel.with_bezel(0.9, table).into()), None);
/// ```
pub fn torn(layer: &Layer) -> Option<String> {
    let Layer::Glass(glass) = layer else {
        return None;
    };
    let refusal = Rundown::new().add(0, *layer).err();
    refusal.filter(|refusal| refusal.cause() == Cause::Bend)?;
    let mut entries = glass.displacement.iter().enumerate();
    let first = entries.find(|(_, entry)| above(**entry, glass.bezel));
    let first = first.map(|(place, entry)| {
        let entry = number::show(*entry);
        format!(", and its entry {place} is {entry}")
    });
    Some(takes(glass.bezel) + &first.unwrap_or_default())
}

#[cfg(test)]
mod tests {
    use super::*;
    use crate::parse;
    use tiglostrema::{Color, Fill, Glass, Rect};

    fn said(text: &str) -> Vec<String> {
        let problems = parse(text).problems;
        let told = |p: &crate::Problem| format!("{}:{}: {}", p.line, p.column, p.message);
        problems.iter().map(told).collect()
    }

    #[test]
    fn a_block_is_the_layers_place_in_the_text() {
        assert_eq!(
            said("layer 1 fil\nlayer 9 glass; rect 0 0 9 9; bezel 2; table round 3.3"),
            [
                "1:9: there is no kind `fil`; did you mean `fill`?",
                "2:51: `table` takes 0 to 3.2 with a bezel of 2, found `3.3` as entry 0 of block 1",
            ]
        );
    }

    #[test]
    fn the_last_entry_is_told_of_once() {
        let text = "layer 1 glass; rect 0 0 9 9; bezel 2; table";
        let last = format!("{text}{} 9", " 3.2".repeat(32));
        assert_eq!(said(&last), ["1:173: `table` ends with 0, found `9`"]);
        let two = format!("{text}{} 3.3 3.3 0", " 3.2".repeat(30));
        assert_eq!(
            said(&two),
            ["1:165: `table` takes 0 to 3.2 with a bezel of 2, found `3.3` as entry 30 of block 0; \
              1 more entry is too large"]
        );
    }

    #[test]
    fn tables_that_suit() {
        let rect = Rect::new(0.0, 0.0, 9.0, 9.0);
        let said = |bezel: f32, table| torn(&Glass::new(rect, 8.0).with_bezel(bezel, table).into());
        let mut table = [12.0; DISPLACEMENT_LEN];
        table[32] = 0.0;
        assert_eq!(said(7.5, table), None);
        assert_eq!(said(0.5, [f32::NAN; DISPLACEMENT_LEN]), None);
        assert_eq!(torn(&Fill::new(rect, Color::WHITE).into()), None);
        table[31] = 12.0_f32.next_up();
        let words = "`table` takes 0 to 12 with a bezel of 7.5, and its entry 31 is 12.000001";
        assert_eq!(said(7.5, table).as_deref(), Some(words));
        // Something else is wrong, and comes before it.
        table[32] = 1.0;
        assert_eq!(said(7.5, table), None);
    }
}
