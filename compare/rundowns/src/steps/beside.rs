//! What a playing in steps leaves in the end, beside a play of the whole rundown and beside the library's map of the
//! stain.
use super::lending::Lending;
use super::playing::Playing;
use crate::check::Expected;
use common::layers::write::block;
use ours::surface;
use reading::{Layer, MOST};

/// What of a playing in order, made to its end or not, is not as in a play of the rundown as a whole.
pub fn wrong_play(playing: &Playing, expected: &Expected, pool_stays: bool) -> Option<String> {
    let steps: Vec<u16> = playing.painted().map(|(layer, _)| layer.priority).collect();
    let layers: Vec<u16> = expected.layers.iter().map(|s| s.layer.priority).collect();
    if !layers.starts_with(&steps) {
        return Some("the steps are not in order".into());
    }
    if steps.len() < layers.len() || !pool_stays {
        return None;
    }
    if playing.canvases[0] != expected.canvas {
        return Some("the canvas is not a play's".into());
    }
    let same = playing.stain.holds == expected.stain.holds;
    (!same).then(|| "the stain is not a play's".into())
}

/// What of the stain is not as in the map of a rundown of just the painted layers, in the order in which they were
/// painted. It is made where all of them were for one size and one table.
pub fn wrong_stain(playing: &Playing) -> Option<String> {
    let (layers, lendings): (Vec<&Layer>, Vec<&Lending>) = playing.painted().unzip();
    let first = *lendings.first()?;
    let same = |l: &&Lending| l.width == first.width && l.table == first.table;
    if layers.len() > MOST || !lendings.iter().all(same) {
        return None;
    }
    let rundown = in_turn(&layers);
    let show = surface::Show {
        rundown: &rundown,
        ..first.lent(0)
    };
    let mut map = vec![2; first.canvas];
    let answer = surface::stain(show, playing.hidden as u32, &mut map);
    let held = playing.stain.holds.iter().map(|held| *held as u8);
    let same = answer == layers.len() as u64 && held.eq(map);
    (!same).then(|| "the stain is not that of the painted layers".into())
}

/// A rundown of these layers, each above the one before.
fn in_turn(layers: &[&Layer]) -> Vec<u8> {
    let numbered = |(priority, layer): (u16, &&Layer)| Layer {
        priority,
        clip: layer.clip,
        kind: layer.kind.clone(),
    };
    let layers = (0..).zip(layers).map(numbered);
    layers.flat_map(|layer| block(&layer)).collect()
}
