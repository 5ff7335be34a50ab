//! Other things lent in one call than in the call before: such as are refused, and such as are not.
use super::lending::Lending;
use crate::case::priority;
use crate::faults::{spoil_length, spoil_sources};
use common::draw::Draw;
use common::layers::draw::{checked, pick};
use common::layers::fields::PRIORITY;
use reading::BLOCK;

/// One of them is put in.
pub fn edit(draw: &mut Draw, lending: &mut Lending, hidden: usize) {
    match draw.below(16) {
        0..=3 => shorten_scratch(draw, lending),
        4 => lending.scratch = lending.scratch.map(|n| n + draw.below(3) as usize),
        5..=6 => spoil_pool(draw, lending, hidden),
        7 => other_table(draw, lending, hidden),
        8 => no_sources(lending),
        9 => other_width(draw, lending),
        10 => wrong_side(draw, lending),
        11 => {
            let mut rundown = lending.rundown.to_vec();
            spoil_length(draw, &mut rundown);
            lending.rundown = rundown.into();
        }
        _ => edit_blocks(draw, lending),
    }
}

/// Less than the dearest panel needs, in either slice or in both.
fn shorten_scratch(draw: &mut Draw, lending: &mut Lending) {
    let need = lending.show().forecast().map_or(0, |f| f.scratch);
    let Some(most) = need.checked_sub(1) else {
        return;
    };
    let short = pick(draw, &[most, most, most / 2, 0]);
    match draw.below(4) {
        0 => lending.scratch = [short; 2],
        n => lending.scratch[n as usize % 2] = short,
    }
}

fn spoil_pool(draw: &mut Draw, lending: &mut Lending, hidden: usize) {
    let [mut table, mut pool] = [lending.table.to_vec(), lending.pools[0].to_vec()];
    spoil_sources(draw, &mut table, &mut pool);
    lending.table = table.into();
    lending.fill(draw, pool, hidden);
}

/// Sources of other sizes or in another order, whose pool is as long.
fn other_table(draw: &mut Draw, lending: &mut Lending, hidden: usize) {
    let mut table = lending.table.to_vec();
    let sizes = table.as_chunks_mut::<2>().0;
    match draw.below(2) {
        0 => sizes.iter_mut().for_each(|size| size.reverse()),
        _ => sizes.reverse(),
    }
    lending.table = table.into();
    let pool = lending.pools[0].to_vec();
    lending.fill(draw, pool, hidden);
}

fn no_sources(lending: &mut Lending) {
    lending.table = [].into();
    lending.pools = [0, 1].map(|_| [].into());
}

/// Another width, with which the canvas has as many pixels.
fn other_width(draw: &mut Draw, lending: &mut Lending) {
    let pixels = lending.canvas as u32;
    let fits = |width: &u32| pixels.is_multiple_of(*width) && pixels / width <= 4096;
    let widths: Vec<u32> = (1..=pixels.min(4096)).filter(fits).collect();
    if !widths.is_empty() {
        lending.width = pick(draw, &widths);
        lending.height = pixels / lending.width;
    }
}

/// A size that is not the canvas's.
fn wrong_side(draw: &mut Draw, lending: &mut Lending) {
    let Lending { width, height, .. } = lending;
    match draw.below(6) {
        0 => *width += 1,
        1 => *width -= 1,
        2 => *height += 1,
        3 => *height = 0,
        4 => [*width, *height] = [1 << 16; 2],
        _ => *width = u32::MAX,
    }
}

/// Blocks changed, moved or taken out.
fn edit_blocks(draw: &mut Draw, lending: &mut Lending) {
    let mut rundown = lending.rundown.to_vec();
    let blocks = rundown.as_chunks_mut::<BLOCK>().0;
    if blocks.is_empty() {
        return;
    }
    let any = |draw: &mut Draw| draw.below(blocks.len() as u64) as usize;
    let [at, from] = [any(draw), any(draw)];
    match draw.below(5) {
        // a wrong check
        0 => blocks[at][draw.below(BLOCK as u64) as usize] ^= 1 << draw.below(8),
        // the priority of another block
        1 => blocks[at] = with_priority(&blocks[at], priority_in(&blocks[from])),
        2 => {
            let free = priority(draw, &lending.priorities());
            blocks[at] = with_priority(&blocks[at], free.to_le_bytes());
        }
        3 => blocks.swap(at, from),
        _ => {
            rundown.drain(BLOCK * at..BLOCK * (at + 1));
        }
    }
    lending.rundown = rundown.into();
}

fn priority_in(block: &[u8; BLOCK]) -> [u8; 2] {
    [block[PRIORITY], block[PRIORITY + 1]]
}

/// The block with another priority, and the check that goes with it.
fn with_priority(block: &[u8; BLOCK], priority: [u8; 2]) -> [u8; BLOCK] {
    let mut body = *block.first_chunk().expect("a block has a body");
    body[PRIORITY..PRIORITY + 2].copy_from_slice(&priority);
    checked(&body)
}
