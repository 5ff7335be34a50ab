//! A rundown's text gives its bytes back: for the showcase, and for random blocks that the library takes. One whose
//! blocks do not ascend gives them in order. One with tables that do not suit their bezels has its text, too, and gives
//! bytes once they are mended.
mod common;

use common::blocks::{body, shaken, Draw};
use common::Dice;
use show::{make, stored, write};
use tiglostrema::raw::{self, BLOCK_LEN, BODY_LEN};
use tiglostrema::{Cause, Glass, Layer, Rundown};

/// How many rundowns of how many blocks are tried: more than ten thousand blocks.
const RUNDOWNS: usize = 400;
const BLOCKS: usize = 32;

/// What was met among the random blocks.
#[derive(Default)]
struct Met {
    kinds: [usize; 9],
    paints: [usize; 4],
    /// Tables that are not read and hold something.
    unread: usize,
    /// Tables with an entry that is as much as the bezel allows.
    most: usize,
    /// Blocks of which a byte was changed.
    changed: usize,
}

impl Met {
    fn count(&mut self, plain: &[u8; BODY_LEN], body: &[u8; BODY_LEN]) {
        self.kinds[usize::from(body[0])] += 1;
        self.changed += usize::from(body != plain);
        let float = |at: usize| f32::from_le_bytes(body[at..at + 4].try_into().unwrap());
        let bezel = float(68);
        let most = |entry: usize| float(104 + 4 * entry) == bezel * 1.6;
        match body[0] {
            1 => self.paints[usize::from(body[29])] += 1,
            4 if bezel <= 0.5 => self.unread += usize::from(body[104..236] != [0; 132]),
            4 => self.most += usize::from((0..32).any(most)),
            _ => {}
        }
    }
}

/// The bytes of a rundown of random blocks.
fn rundown(dice: &mut Dice, round: usize, met: &mut Met) -> Vec<u8> {
    let mut bytes = vec![0; BLOCKS * BLOCK_LEN];
    for count in 0..BLOCKS {
        let kind = 1 + dice.below(8) as u8;
        // Added in another order in each rundown, and every priority once: 2039 is a prime.
        let priority = ((count + 1) * (round + 1) * 31 % 2039) as u16;
        let plain = body(dice, kind, priority);
        let body = shaken(dice, plain);
        assert_eq!(raw::add(&mut bytes, count, &body), Ok(count + 1));
        met.count(&plain, &body);
    }
    bytes
}

#[test]
fn random_blocks() {
    let mut dice = Dice(14);
    let mut met = Met::default();
    for round in 0..RUNDOWNS {
        let bytes = rundown(&mut dice, round, &mut met);
        let layers = Rundown::from_bytes(&bytes).unwrap();
        for text in [write(&layers), write(layers.iter().rev())] {
            let made = make(&text).unwrap_or_else(|p| panic!("{p:?}"));
            assert!(made.rundown.as_bytes() == bytes, "{text}");
        }
    }
    assert_eq!(met.kinds.iter().sum::<usize>(), 12_800);
    assert!(met.kinds[1..].iter().all(|n| *n > 1000), "{:?}", met.kinds);
    assert!(met.paints.iter().all(|n| *n > 300), "{:?}", met.paints);
    assert!(met.unread > 300, "{}", met.unread);
    assert!(met.most > 300, "{}", met.most);
    assert!(met.changed > 1000, "{}", met.changed);
}

/// Puts an entry in a block's table that its bezel does not allow, and the check for it; not where no table is read.
fn tear(dice: &mut Dice, block: &mut [u8]) -> bool {
    let bezel = f32::from_le_bytes(block[68..72].try_into().unwrap());
    if block[0] != 4 || bezel <= 0.5 {
        return false;
    }
    let (entry, least) = (
        dice.below(32) as usize,
        Glass::most_displacement(bezel).next_up(),
    );
    let value = dice.float(least, 1024.0).max(least);
    block[104 + 4 * entry..][..4].copy_from_slice(&value.to_le_bytes());
    let sum: u32 = (1..)
        .zip(&block[..BODY_LEN])
        .map(|(i, byte)| i * u32::from(*byte))
        .sum();
    block[BODY_LEN..].copy_from_slice(&sum.to_le_bytes());
    true
}

/// Puts into each table that does not suit its bezel the entries of another.
fn mend(layers: &mut [(u16, Layer)], right: &Rundown) {
    for ((_, layer), (_, other)) in layers.iter_mut().zip(right) {
        if let (Layer::Glass(torn), Layer::Glass(right)) = (layer, other) {
            torn.displacement = right.displacement;
        }
    }
}

#[test]
fn tables_to_mend() {
    let (mut dice, mut met, mut torn) = (Dice(16), Met::default(), 0);
    for round in 0..RUNDOWNS {
        let bytes = rundown(&mut dice, round, &mut met);
        let right = Rundown::from_bytes(&bytes).unwrap();
        let mut old = bytes.clone();
        let tear = |block: &mut [u8]| usize::from(dice.below(2) > 0 && tear(&mut dice, block));
        let count: usize = old.chunks_exact_mut(BLOCK_LEN).map(tear).sum();
        let mut layers = stored(&old).unwrap();
        let text = write(layers.iter().copied());
        assert_eq!(text.matches("// the table of layer").count(), count);
        if count > 0 {
            let refusal = Rundown::from_bytes(&old).unwrap_err();
            assert_eq!(refusal.cause(), Cause::Bend);
            let problems = make(&text).unwrap_err();
            assert!(problems
                .iter()
                .all(|p| p.message.starts_with("`table` takes 0 to ")));
            assert_eq!(problems.len(), count, "{problems:?}");
        }
        mend(&mut layers, &right);
        let mended = write(layers);
        let made = make(&mended).unwrap_or_else(|p| panic!("{p:?}"));
        assert!(made.rundown.as_bytes() == bytes, "{mended}");
        torn += count;
    }
    assert!(torn > 300, "{torn}");
}

#[test]
fn the_showcase() {
    let text = include_str!("../../../showcase/bulletin.txt");
    let first = make(text).unwrap().rundown;
    assert_eq!(first.len(), 20);
    let written = write(&first);
    let again = make(&written).unwrap();
    assert!(again.rundown.as_bytes() == first.as_bytes());
    // The text of the text's rundown is the text.
    assert_eq!(write(&again.rundown), written);
}

#[test]
fn blocks_in_any_order() {
    let one = |priority: u16| {
        let text = format!("layer {priority} frame; rect 1 2 3 4; tag usb; clip 0 1 2 {priority}");
        make(&text).unwrap().rundown.into_bytes()
    };
    let rundown = |order: [u16; 4]| Rundown::from_bytes(&order.map(one).concat()).unwrap();
    let text = write(&rundown([7, 300, 1, 0]));
    // The text has them as they stood, and made again they ascend.
    let layers: Vec<&str> = text.lines().filter(|l| l.starts_with("layer")).collect();
    let stood = [
        "layer 7 frame",
        "layer 300 frame",
        "layer 1 frame",
        "layer 0 frame",
    ];
    assert_eq!(layers, stood);
    assert_eq!(make(&text).unwrap().rundown, rundown([0, 1, 7, 300]));
}

#[test]
fn no_layers() {
    let text = write(&Rundown::new());
    assert!(make(&text).unwrap().rundown.is_empty());
}
