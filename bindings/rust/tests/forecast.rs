//! The forecast: what it says of small shows, that a play is tied to it, and what it refuses.
mod common;

use common::{bent, block, copy, patched};
use tiglostrema::raw::{self, BLOCK_LEN, BOXES_LEN, TOTALS_LEN};
use tiglostrema::{
    forecast, play, Canvas, Cause, Color, Fill, Forecast, Frame, Genie, Glass, IRect, Layer, Point,
    Rect, Refusal, Rundown, Scratch, SecurityTag, Shadow, Source, SourceTable, Sources,
    StraightCopy,
};

const WIDTH: u32 = 8;
const HEIGHT: u32 = 2;
/// Two sources, 2 by 2 and 3 by 2 pixels.
const TABLE: [u32; 4] = [2, 2, 3, 2];

fn table() -> SourceTable {
    let mut table = SourceTable::new();
    for size in TABLE.chunks_exact(2) {
        table.push(size[0], size[1]).expect("room");
    }
    table
}

/// Blocks in that order, though an add would put them in another.
fn bytes(layers: &[(u16, Layer)]) -> Vec<u8> {
    let blocks = layers
        .iter()
        .map(|(priority, layer)| block(*priority, *layer));
    blocks.collect::<Vec<_>>().concat()
}

fn rundown(layers: &[(u16, Layer)]) -> Rundown {
    Rundown::from_bytes(&bytes(layers)).expect("a rundown")
}

fn of(layers: &[(u16, Layer)]) -> Forecast {
    forecast(&rundown(layers), WIDTH, HEIGHT, &table()).expect("accepted")
}

fn panel(x: f32, w: f32) -> Layer {
    Glass::new(Rect::new(x, 0.0, w, 2.0), 0.0).into()
}

/// A panel that looks at the whole canvas, since its blur reaches so far.
fn blurred(blur: f32) -> Layer {
    Glass::new(Rect::new(1.0, 0.0, 2.0, 2.0), blur).into()
}

/// Three panels that look at 5, 8 and 5 columns.
fn panels() -> [(u16, Layer); 3] {
    let [left, wide, right] = [panel(0.0, 2.0), panel(0.0, 8.0), panel(6.0, 2.0)];
    [(3, left), (2, wide), (1, right)]
}

/// A panel, and beside it a copy that is painted first.
fn beside() -> [(u16, Layer); 2] {
    let clip = IRect::new(0, 0, 8, 2);
    let panel = Glass::new(Rect::new(4.0, 0.0, 3.0, 2.0), 0.0).with_clip(clip);
    let copy = StraightCopy::new(0, 0, 0).with_clip(clip);
    [(9, panel.into()), (1, copy.into())]
}

/// The cause by which a play with scratch of these lengths is refused, and its block.
fn played(rundown: &[u8], a: usize, b: usize) -> Result<usize, (Cause, Option<usize>)> {
    let mut canvas = [0; (WIDTH * HEIGHT) as usize];
    let (mut a, mut b) = (vec![0; a], vec![0; b]);
    let pool = [0; 2 * 2 + 3 * 2];
    let played = raw::play(
        rundown,
        WIDTH,
        HEIGHT,
        &mut canvas,
        &TABLE,
        &pool,
        &mut a,
        &mut b,
    );
    played.map_err(|refusal| (refusal.cause(), refusal.block()))
}

#[test]
fn a_panel_beside_a_copy() {
    let forecast = of(&beside());
    assert_eq!(forecast.layers(), 2);
    assert_eq!((forecast.scratch(), forecast.cells()), (42, 14));
    let boxes = [IRect::new(4, 0, 7, 2), IRect::new(0, 0, 2, 2)];
    assert_eq!(forecast.boxes(), boxes.map(Some));
    // The other way round the boxes stand the other way round, and the rest stays.
    let [panel, copy] = beside();
    let other = of(&[copy, panel]);
    assert_eq!((other.scratch(), other.cells()), (42, 14));
    assert!(other.boxes().iter().rev().eq(forecast.boxes()));
}

#[test]
fn no_layer() {
    let forecast = of(&[]);
    let (mut boxes, mut totals) = ([7; BOXES_LEN], [7; TOTALS_LEN]);
    let answer = raw::forecast_into(&[], 1, 1, &[], &mut boxes, &mut totals);
    assert_eq!((answer, boxes, totals), (Ok(0), [0; 1024], [0; 2]));
    assert_eq!((forecast.layers(), forecast.scratch()), (0, 0));
    assert_eq!((forecast.cells(), forecast.boxes()), (0, &[][..]));
    assert_eq!(played(&[], 0, 0), Ok(0));
}

#[test]
fn a_play_is_tied_to_it() {
    let shows = [
        beside().to_vec(),
        panels().to_vec(),
        vec![(3, panel(0.0, 3.0)), (7, blurred(3.0))],
    ];
    for (layers, first) in shows.iter().zip([0, 1, 0]) {
        let (bytes, len) = (bytes(layers), of(layers).scratch());
        assert_eq!(played(&bytes, len, len), Ok(layers.len()));
        for (a, b) in [(len - 1, len), (len, len - 1), (len - 1, len - 1)] {
            let short = Err((Cause::ScratchTooShort, Some(first)));
            assert_eq!(played(&bytes, a, b), short, "{len} bytes: {a} and {b}");
        }
    }
}

#[test]
fn the_greatest_need_and_all_cells() {
    let several = of(&panels());
    assert_eq!((several.scratch(), several.cells()), (48, 10 + 16 + 10));
    // 7 by 3 pixels as cells of 2 by 2 pixels, then of 4 by 4: the last ones are not whole.
    for (blur, cells) in [(3.0, 4 * 2), (9.0, 2)] {
        let one = rundown(&[(1, blurred(blur))]);
        let forecast = forecast(&one, WIDTH - 1, HEIGHT + 1, &table()).expect("accepted");
        assert_eq!(
            (forecast.scratch() as u64, forecast.cells()),
            (3 * cells, cells)
        );
    }
}

#[test]
fn a_panel_that_paints_nothing_needs_nothing() {
    // Its window has columns 6 and 7, its box none.
    let beyond = panel(9.0, 3.0);
    let narrow = panel(1.0, 1.5);
    let clipped = Glass::new(Rect::new(0.0, 0.0, 8.0, 2.0), 0.0).with_clip(IRect::new(9, 0, 9, 2));
    let layers = [(1, beyond), (2, narrow), (3, clipped.into())];
    let forecast = of(&layers);
    assert_eq!((forecast.scratch(), forecast.cells()), (0, 0));
    assert_eq!(forecast.boxes(), [None; 3]);
    assert_eq!(played(&bytes(&layers), 0, 0), Ok(3));
}

#[test]
fn boxes_of_other_kinds() {
    let clip = IRect::new(1, 1, 30, 30);
    let rect = Rect::new(2.5, 0.0, 1.0, 1.0);
    let genie = Genie::new(1, rect, Point::new(0.0, 0.0), 0.5).with_clip(clip);
    // A frame ignores its clip.
    let mut frame = Frame::new(3, 0, 5, 9, SecurityTag::MintPersonal);
    frame.clip = clip;
    let layers = [
        (4, Fill::new(rect, Color::WHITE).into()),
        (3, Shadow::new(rect, 2.0, Color::WHITE).into()),
        (2, genie.into()),
        (1, frame.into()),
        (0, StraightCopy::new(1, -1, 1).into()),
    ];
    let boxes = [
        [2, 0, 4, 1],
        [0, 0, 6, 2],
        [1, 1, 8, 2],
        [3, 0, 8, 2],
        [0, 1, 2, 2],
    ];
    let boxes = boxes.map(|[x0, y0, x1, y1]| Some(IRect::new(x0, y0, x1, y1)));
    let forecast = of(&layers);
    assert_eq!(forecast.boxes(), boxes);
    assert_eq!((forecast.scratch(), forecast.cells()), (0, 0));
}

#[test]
fn the_largest_show() {
    let mut rundown = Rundown::new();
    for priority in 0..256 {
        let panel = Glass::new(Rect::new(0.0, 0.0, 4096.0, 4096.0), 0.0);
        rundown.add(priority, panel).expect("in range");
    }
    let forecast = forecast(&rundown, 4096, 4096, &SourceTable::new()).expect("accepted");
    assert_eq!(forecast.layers(), 256);
    assert_eq!(
        (forecast.scratch(), forecast.cells()),
        (50_331_648, 1 << 32)
    );
    assert_eq!(forecast.boxes(), [Some(IRect::new(0, 0, 4096, 4096)); 256]);
}

#[test]
fn scratch_is_made_of_it() {
    let (rundown, mut sources) = (rundown(&beside()), Sources::new());
    for (width, pixels) in [(2, &[0; 4][..]), (3, &[0; 6][..])] {
        let source = Source::new(width, 2, pixels).expect("a source");
        sources.push(source).expect("room");
    }
    let forecast = forecast(&rundown, WIDTH, HEIGHT, sources.table()).expect("accepted");
    let mut made = Scratch::for_forecast(&forecast);
    assert_eq!(made.len(), 42);
    // An empty one grows to the same, and neither grows any more.
    let mut grown = Scratch::new();
    for _ in 0..2 {
        for scratch in [&mut made, &mut grown] {
            let mut canvas = Canvas::new(WIDTH, HEIGHT).expect("a canvas");
            assert_eq!(play(&rundown, &mut canvas, &sources, scratch), Ok(2));
            assert_eq!(scratch.len(), 42);
        }
    }
}

#[test]
fn a_play_that_is_refused_leaves_the_scratch() {
    let [panel, _] = beside();
    let rundown = rundown(&[panel, (1, StraightCopy::new(0, 0, 0).into())]);
    let mut canvas = Canvas::new(WIDTH, HEIGHT).expect("a canvas");
    let mut scratch = Scratch::new();
    let refusal = play(&rundown, &mut canvas, &Sources::new(), &mut scratch).expect_err("refused");
    assert_eq!(refusal.cause(), Cause::NoSuchSource);
    assert!(scratch.is_empty());
}

#[test]
fn it_is_refused_in_words() {
    let words = |layer: Layer, width, table: &SourceTable| {
        let refusal = forecast(&rundown(&[(7, layer)]), width, HEIGHT, table);
        refusal.expect_err("refused").to_string()
    };
    let copy = StraightCopy::new(2, 0, 0).into();
    assert_eq!(
        words(copy, WIDTH, &table()),
        "block 0, priority 7: there is no source 2, the last is 1 (cause 9)"
    );
    assert_eq!(
        words(copy, 0, &table()),
        "the canvas is 0 × 2 pixels, and a side has 1 to 4096 (cause 1)"
    );
    assert_eq!(
        words(
            Frame::new(1, 0, 8, 1, SecurityTag::BlueWork).into(),
            WIDTH,
            &table()
        ),
        "block 0, priority 7: the frame ends at column 9, and the canvas is 8 wide (cause 10)"
    );
    let mut table = table();
    table.remove(1).expect("there");
    assert_eq!(
        words(StraightCopy::new(1, 0, 0).into(), WIDTH, &table),
        "block 0, priority 7: source 1 was removed (cause 9)"
    );
}

/// The refusal of a forecast over lent arrays, which are as they were.
fn refused(rundown: &[u8], (width, height): (u32, u32), table: &[u32]) -> Refusal {
    let (mut boxes, mut totals) = ([-7; BOXES_LEN], [u64::MAX; TOTALS_LEN]);
    let refusal = raw::forecast_into(rundown, width, height, table, &mut boxes, &mut totals)
        .expect_err("refused");
    assert_eq!((boxes, totals), ([-7; BOXES_LEN], [u64::MAX; TOTALS_LEN]));
    assert_eq!(
        Forecast::of_bytes(rundown, width, height, table),
        Err(refusal)
    );
    refusal
}

#[test]
fn a_refusal_changes_nothing() {
    let size = (WIDTH, HEIGHT);
    for side in [0, 4097, 65536, u32::MAX] {
        for size in [(side, 1), (1, side), (side, side)] {
            assert_eq!(refused(&copy(3), size, &[1]).cause(), Cause::CanvasSize);
        }
    }
    for table in [&[2][..], &[2, 0], &[4097, 1], &[1; 33], &[1; 34]] {
        assert_eq!(refused(&[1], size, table).cause(), Cause::SourceTable);
    }
    for len in [1, BLOCK_LEN - 1, 257 * BLOCK_LEN] {
        let refusal = refused(&vec![0; len], size, &TABLE);
        assert_eq!(refusal.cause(), Cause::RundownLength);
    }
    let frame = block(4, Frame::new(1, 0, WIDTH, 1, SecurityTag::AmberUsb));
    let second = [
        (patched(copy(4), 0, &[9]), Cause::Form),
        (
            patched(copy(4), 48, &f32::NAN.to_le_bytes()),
            Cause::FloatRange,
        ),
        (
            patched(copy(4), 8, &16385i32.to_le_bytes()),
            Cause::IntegerRange,
        ),
        (bent(4, 0x3F00_0001, 31, 0x3F4C_CCD0), Cause::Bend),
        (patched(copy(4), 4, &[2]), Cause::NoSuchSource),
        (frame, Cause::FrameTooWide),
        (copy(3), Cause::DuplicatePriority),
    ];
    for (block, cause) in second {
        let refusal = refused(&[copy(3), block].concat(), size, &TABLE);
        assert_eq!((refusal.cause(), refusal.block()), (cause, Some(1)));
    }
    let mut unsealed = copy(3);
    unsealed[BLOCK_LEN - 1] ^= 1;
    assert_eq!(refused(&unsealed, size, &TABLE).cause(), Cause::Check);
    // A priority twice is looked for behind all that lies in a single block.
    let wrong = patched(copy(5), 4, &[2]);
    let refusal = refused(&[copy(3), copy(3), wrong].concat(), size, &TABLE);
    assert_eq!(
        (refusal.cause(), refusal.block()),
        (Cause::NoSuchSource, Some(2))
    );
}
