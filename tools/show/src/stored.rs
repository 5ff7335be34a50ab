//! The layers of stored bytes, for their text.
use tiglostrema::raw::{self, BLOCK_LEN, BODY_LEN};
use tiglostrema::{Cause, Layer, Refusal, Rundown, DISPLACEMENT_LEN, MAX_LAYERS};

/// Where a glass block has its table.
const TABLE: usize = 104;

/// A table that was set aside, with the number of its block.
type Aside = (usize, [f32; DISPLACEMENT_LEN]);

/// The layers of a rundown's bytes with their priorities, in the order of their blocks: also of one from before tables
/// were held to their bezels, which the library refuses by [`Cause::Bend`]. Such a layer has its own table, so that
/// [`write`](crate::write) can give it back for mending; a [`Rundown`] would not take it.
///
/// The library alone says what is right. A table for which it refuses a block is set aside, zeros are put in its place,
/// and it is asked again.
///
/// # Errors
///
/// What the library says of the bytes where every table suits its bezel: causes 3 to 8.
pub fn stored(bytes: &[u8]) -> Result<Vec<(u16, Layer)>, Refusal> {
    let (mut rest, mut tables) = (bytes.to_vec(), Vec::new());
    let rundown = loop {
        let tested = Rundown::from_bytes(&rest);
        // Once for each block at most: with zeros in its table's place none is refused for that again.
        let more = tables.len() < MAX_LAYERS;
        let torn = tested.as_ref().err().filter(|_| more).and_then(torn_block);
        match torn.and_then(|block| set_aside(&mut rest, block)) {
            Some(table) => tables.push(table),
            None => break tested?,
        }
    };
    let mut layers: Vec<_> = rundown.iter().collect();
    for (block, table) in tables {
        if let (_, Layer::Glass(glass)) = &mut layers[block] {
            glass.displacement = table;
        }
    }
    Ok(layers)
}

/// The block whose table does not suit its bezel, if it was refused for that.
fn torn_block(refusal: &Refusal) -> Option<usize> {
    let block = refusal.block()?;
    (refusal.cause() == Cause::Bend).then_some(block)
}

/// Sets a block's table aside. The library writes the block anew, with zeros in the table's place and their check.
fn set_aside(rundown: &mut [u8], number: usize) -> Option<Aside> {
    let block = &mut rundown[number * BLOCK_LEN..][..BLOCK_LEN];
    let table = std::array::from_fn(|entry| {
        let at = TABLE + 4 * entry;
        f32::from_le_bytes(std::array::from_fn(|byte| block[at + byte]))
    });
    let mut body: [u8; BODY_LEN] = std::array::from_fn(|byte| block[byte]);
    body[TABLE..TABLE + 4 * DISPLACEMENT_LEN].fill(0);
    raw::add(block, 0, &body).ok()?;
    Some((number, table))
}

#[cfg(test)]
mod tests {
    use super::*;
    use crate::{make, parse, torn, write, Entry};

    /// Its layers do not ascend.
    const SHOW: &str = "\
        layer 10 glass; rect 0 0 90 40; bezel 12; table round 19.2\n\
        layer 5 fill; rect 1 2 3 4; colour red\n\
        layer 20 glass; rect 0 60 90 8; bezel 12; table linear 8";

    /// The show's blocks in the text's order, as rundowns had them before an add put them in order.
    fn blocks(text: &str) -> Vec<u8> {
        let one = |entry: &Entry| {
            let mut rundown = Rundown::new();
            rundown.add(entry.priority, entry.layer).unwrap();
            rundown.into_bytes()
        };
        parse(text).entries.iter().flat_map(one).collect()
    }

    /// These blocks, with other bytes at places of the whole and the checks for them, as no command writes them.
    fn poked(text: &str, pokes: &[(usize, &[u8])]) -> Vec<u8> {
        let mut bytes = blocks(text);
        for (at, poke) in pokes {
            bytes[*at..at + poke.len()].copy_from_slice(poke);
        }
        for block in bytes.chunks_exact_mut(BLOCK_LEN) {
            let (body, check) = block.split_at_mut(BODY_LEN);
            let sum: u32 = (1..).zip(body).map(|(i, byte)| i * u32::from(*byte)).sum();
            check.copy_from_slice(&sum.to_le_bytes());
        }
        bytes
    }

    /// Where block `number` has its bezel.
    fn bezel(number: usize) -> usize {
        BLOCK_LEN * number + 68
    }

    /// A bezel too narrow for each table of the show.
    const NARROW: [u8; 4] = 0.75_f32.to_le_bytes();

    fn said(bytes: &[u8]) -> (u32, Option<usize>) {
        let refusal = stored(bytes).unwrap_err();
        (refusal.cause().number(), refusal.block())
    }

    #[test]
    fn a_right_rundown_has_its_layers() {
        let bytes = blocks(SHOW);
        let layers: Vec<_> = Rundown::from_bytes(&bytes).unwrap().iter().collect();
        assert_eq!(stored(&bytes), Ok(layers));
        assert_eq!(stored(&[]), Ok(Vec::new()));
    }

    #[test]
    fn layers_keep_their_tables() {
        for narrowed in [&[0][..], &[2], &[0, 2]] {
            let pokes: Vec<_> = narrowed.iter().map(|n| (bezel(*n), &NARROW[..])).collect();
            let old = poked(SHOW, &pokes);
            let refusal = Rundown::from_bytes(&old).unwrap_err();
            assert_eq!(torn_block(&refusal), Some(narrowed[0]));
            let right = Rundown::from_bytes(&blocks(SHOW)).unwrap();
            let mut expected: Vec<_> = right.iter().collect();
            for number in narrowed {
                if let (_, Layer::Glass(glass)) = &mut expected[*number] {
                    glass.bezel = 0.75;
                }
            }
            let layers = stored(&old).unwrap();
            assert_eq!(layers, expected);
            let is_torn = |number: &usize| torn(&layers[*number].1).is_some();
            let torn: Vec<_> = (0..layers.len()).filter(is_torn).collect();
            assert_eq!(torn, narrowed);
        }
    }

    #[test]
    fn every_other_cause_is_the_librarys() {
        let torn = (bezel(0), &NARROW[..]);
        let infinite = f32::INFINITY.to_le_bytes();
        assert_eq!(said(&poked(SHOW, &[torn])[..1000]), (3, None));
        assert_eq!(said(&poked(SHOW, &[torn]).repeat(86)), (3, None));
        // The check of block 1, the kind of block 2, and a radius and a clip of block 0 itself.
        let mut damaged = poked(SHOW, &[torn, (bezel(2), &NARROW)]);
        damaged[BLOCK_LEN + 508] ^= 1;
        assert_eq!(said(&damaged), (4, Some(1)));
        assert_eq!(said(&poked(SHOW, &[torn, (1024, &[9])])), (5, Some(2)));
        assert_eq!(said(&poked(SHOW, &[torn, (48, &infinite)])), (6, Some(0)));
        assert_eq!(
            said(&poked(SHOW, &[torn, (236, &[1, 64, 0, 0])])),
            (7, Some(0))
        );
        // Entries that are in no table: the first above 1024, and a last one other than 0.
        let (above, last) = (1025_f32.to_le_bytes(), 1_f32.to_le_bytes());
        assert_eq!(said(&poked(SHOW, &[torn, (104, &above)])), (6, Some(0)));
        assert_eq!(said(&poked(SHOW, &[torn, (232, &last)])), (6, Some(0)));
        // The priority of block 0, in a block with such a table and in another.
        let again = [torn, (bezel(2), &NARROW), (1026, &[10])];
        assert_eq!(said(&poked(SHOW, &again)), (8, Some(2)));
        assert_eq!(said(&poked(SHOW, &[torn, (514, &[10])])), (8, Some(1)));
    }

    #[test]
    fn as_many_as_there_may_be() {
        let line =
            |n: usize| format!("layer {n} glass; rect 0 0 9 9; bezel 200; table linear {n}\n");
        let text: String = (2..258).map(line).collect();
        let pokes: Vec<_> = (0..256).map(|n| (bezel(n), &NARROW[..])).collect();
        let layers = stored(&poked(&text, &pokes[..])).unwrap();
        let firsts = layers.iter().map(|(_, layer)| match layer {
            Layer::Glass(glass) => glass.displacement[0],
            other => panic!("{other:?}"),
        });
        assert!(firsts.eq((2..258).map(|n| n as f32)));
        assert!(layers.iter().all(|(_, layer)| torn(layer).is_some()));
    }

    #[test]
    fn the_text_is_mended() {
        let old = poked(SHOW, &[(bezel(2), &NARROW)]);
        let text = write(stored(&old).unwrap());
        let comment = "// the table of layer 20 does not suit its bezel: \
                       `table` takes 0 to 1.2 with a bezel of 0.75, and its entry 0 is 8\nlayer 20 glass\n";
        assert!(
            text.contains(comment) && text.matches("//").count() == 1,
            "{text}"
        );
        let problems = make(&text).unwrap_err();
        let words = "`table` takes 0 to 1.2 with a bezel of 0.75, \
                     found `8` as entry 0 of block 2; 27 more entries are too large";
        assert_eq!(problems.len(), 1, "{problems:?}");
        assert_eq!(problems[0].message, words);
        let mended = text.replace("bezel 0.75", "bezel 12");
        assert_eq!(make(&mended).unwrap().rundown, make(SHOW).unwrap().rundown);
    }
}
