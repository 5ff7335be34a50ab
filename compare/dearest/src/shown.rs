//! What users may rest on of the block that ours shows.
use crate::call::Call;
use crate::check::Asked;
use common::draw::Draw;
use common::layers::kash::{canvas_of, paint, Sources};
use common::lend::{Lent, Played};
use common::numbers::Pixels;
use kash::glass::GlassScratch;
use ours::surface::{self, BOXES};
use reading::{judge, packed, Answer, Cause, Kind, Layer, Show, BLOCK};

/// What scratch holds before a play.
const FILLED: u8 = 0x5A;

/// What of the promises does not hold: it passes all tests, is a panel of the very blur, needs just so much, is forecast
/// so, is played with that, and is refused with a byte less.
pub fn broken(
    asked: &Asked,
    block: &[u8; BLOCK],
    need: usize,
    draw: &mut Draw,
    lent: Lent,
) -> Option<String> {
    let layer = match read(&asked.call, block, need) {
        Ok(layer) => layer,
        Err(what) => return Some(what),
    };
    let show = surface::Show {
        rundown: block,
        width: asked.call.width,
        height: asked.call.height,
        table: &[],
        pool: &[],
    };
    unforeseen(show, need).or_else(|| match asked.painted {
        true => unplayed(show, &layer, need, draw, lent),
        false => unrefused(show, need),
    })
}

/// The panel as the reading has it, or what of it is not so.
fn read(call: &Call, block: &[u8; BLOCK], need: usize) -> Result<Layer, String> {
    judge(block).map_err(|cause| format!("the block is refused: {cause:?}"))?;
    let layer = Layer::of(block.first_chunk().expect("a block has a body"));
    let same = |blur: f32| blur.to_bits() == call.blur.to_bits();
    if !matches!(&layer.kind, Kind::Glass(glass) if same(glass.blur)) || layer.priority != 0 {
        return Err(format!("the block is {layer:?}"));
    }
    let alone = Show {
        rundown: block,
        width: call.width,
        height: call.height,
        canvas: call.pixels(),
        table: &[],
        pool: 0,
        scratch: [need; 2],
    };
    let needed = alone.need(&layer);
    if needed != need || alone.answer() != Ok(1) {
        return Err(format!("the block needs {needed}"));
    }
    Ok(layer)
}

/// What of ours' forecast of the block alone is not so.
fn unforeseen(show: surface::Show, need: usize) -> Option<String> {
    let (mut boxes, mut totals) = ([0; BOXES], [0; 2]);
    let answer = surface::forecast(show, &mut boxes, &mut totals);
    let wanted = (1, [need as u64, need as u64 / 3]);
    ((answer, totals) != wanted).then(|| format!("the forecast is {answer:X}, {totals:?}"))
}

/// The lengths of the slices where one of them is a byte too short.
fn short(need: usize) -> [[usize; 2]; 2] {
    [[need - 1, need], [need, need - 1]]
}

/// With a byte less the play is refused, whatever the size: neither side looks at what is lent.
fn unrefused(show: surface::Show, need: usize) -> Option<String> {
    let mut canvas = vec![0; show.width as usize * show.height as usize];
    short(need).into_iter().find_map(|lengths| {
        let [mut a, mut b] = lengths.map(|n| vec![0; n]);
        let answer = surface::play(show, &mut canvas, &mut a, &mut b);
        let refused = packed(Err((Cause::Scratch, 0)));
        (answer != refused).then(|| format!("played with {lengths:?}: {answer:X}"))
    })
}

/// With just enough the play is accepted and paints what kash-ui does; with a byte less it is refused, and changes
/// nothing.
fn unplayed(
    show: surface::Show,
    layer: &Layer,
    need: usize,
    draw: &mut Draw,
    lent: Lent,
) -> Option<String> {
    let before = Pixels::draw(draw).take(show.width as usize * show.height as usize);
    let mut painted = canvas_of(show.width, show.height, &before);
    let (none, mut scratch) = (Sources::default(), GlassScratch::default());
    paint(&mut painted, layer, &none, &mut scratch);
    let with = |lengths, answer: Answer, wanted: &[u32]| {
        let played = Played::of(surface::play, show, &before, lengths, lent, FILLED);
        let what = played.wrong(answer, wanted)?;
        Some(format!("{what} with scratch {lengths:?}"))
    };
    with([need; 2], Ok(1), &painted.px).or_else(|| {
        let refused = Err((Cause::Scratch, 0));
        let mut lengths = short(need).into_iter();
        lengths.find_map(|lengths| with(lengths, refused, &before))
    })
}
