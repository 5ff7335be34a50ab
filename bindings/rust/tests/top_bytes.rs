//! Top bytes: 0 in each pixel that a copy paints, whatever the source's, FF in a frame's, and as
//! they were in every pixel that is not painted. The words were worked out by the rules.
use tiglostrema::{
    forecast, play, Canvas, Color, Fill, Frame, Genie, Glass, IRect, Layer, Point, Rect, Rundown,
    ScaledCopy, Scratch, SecurityTag, Shadow, Source, Sources, StraightCopy, Stroke,
};

/// What the sources are full of, and what it becomes.
const KEYED: u32 = 0xAA112233;
const CLEAN: u32 = 0x00112233;
/// A ground with top bytes of its own, and the same painted without a change of its colour.
const GROUND: u32 = 0xAA010203;
const GROUND_CLEAN: u32 = 0x00010203;
/// The sides of the three sources, which are squares.
const SIDES: [u32; 3] = [3, 8, 12];
const BOX: Rect = Rect::new(4.0, 4.0, 8.0, 8.0);

/// Sources of these words; `word` is asked for each pixel's place.
fn sources(word: impl Fn(u32) -> u32) -> Sources {
    let mut sources = Sources::new();
    for side in SIDES {
        let pixels: Vec<u32> = (0..side * side).map(&word).collect();
        let source = Source::new(side, side, &pixels).expect("a source");
        sources.push(source).expect("room");
    }
    sources
}

fn rundown(layers: &[Layer]) -> Rundown {
    let mut rundown = Rundown::new();
    for (layer, priority) in layers.iter().zip(0..) {
        rundown.add(priority, *layer).expect("in range");
    }
    rundown
}

/// The layers over this canvas, the first one lowest.
fn over(mut canvas: Canvas, sources: &Sources, layers: &[Layer]) -> Canvas {
    play(&rundown(layers), &mut canvas, sources, &mut Scratch::new()).expect("accepted");
    canvas
}

/// The same over one word, with sources of one word.
fn painted(width: u32, height: u32, ground: u32, layers: &[Layer]) -> Canvas {
    let pixels = vec![ground; (width * height) as usize];
    let canvas = Canvas::from_pixels(width, height, pixels).expect("a canvas");
    over(canvas, &sources(|_| KEYED), layers)
}

/// Where the canvas has this top byte.
fn with_top(canvas: &Canvas, top: u32) -> Vec<(u32, u32)> {
    let places = (0..canvas.height()).flat_map(|y| (0..canvas.width()).map(move |x| (x, y)));
    let words = places.zip(canvas.pixels());
    words
        .filter(|(_, word)| *word >> 24 == top)
        .map(|(place, _)| place)
        .collect()
}

#[test]
fn an_exact_copy_has_none() {
    let copy = StraightCopy::new(0, 0, 0);
    assert_eq!(painted(3, 3, 0, &[copy.into()]).pixels(), [CLEAN; 9]);

    let canvas = painted(5, 5, GROUND, &[StraightCopy::new(0, 1, 1).into()]);
    let (g, c) = (GROUND, CLEAN);
    let beside = [g, c, c, c, g];
    assert_eq!(
        canvas.pixels(),
        [[g; 5], beside, beside, beside, [g; 5]].concat()
    );
}

#[test]
fn a_round_copy_leaves_its_uncovered_corners() {
    // With sides of 8 every pixel lies in a square at a corner; with 12 some are between these.
    for (source, side) in [(1, 8), (2, 12)] {
        let copy = StraightCopy::new(source, 0, 0).with_radius(4.0);
        let canvas = painted(side, side, 0xFF000000, &[copy.into()]);
        let last = side - 1;
        let corners = [(0, 0), (last, 0), (0, last), (last, last)];
        assert_eq!(with_top(&canvas, 0xFF), corners);
        assert_eq!(with_top(&canvas, 0).len() as u32, side * side - 4);
        assert_eq!(canvas.pixel(0, 0), Some(0xFF000000));
        assert_eq!(canvas.pixel(side / 2, side / 2), Some(CLEAN));
    }
}

#[test]
fn a_copy_of_alpha_0_clears_all_but_its_corners() {
    let copy = StraightCopy::new(0, 0, 0).with_alpha(0);
    let (g, c) = (GROUND, GROUND_CLEAN);
    let canvas = painted(3, 3, GROUND, &[copy.into()]);
    assert_eq!(canvas.pixels(), [g, c, g, c, c, c, g, c, g]);
}

#[test]
fn a_mixed_and_a_dimmed_copy_have_none() {
    let copy = StraightCopy::new(0, 0, 0);
    for (copy, word) in [
        (copy.with_alpha(128), 0x0009121B),
        (copy.with_dim(128), 0x00081119),
    ] {
        assert_eq!(painted(3, 3, GROUND, &[copy.into()]).pixels(), [word; 9]);
    }
}

/// Its veil lies in columns 4 to 7 of rows 28 to 35.
#[test]
fn a_frame_sets_ff_and_a_copy_over_it_clears_that() {
    let beneath = StraightCopy::new(0, 5, 30).into();
    let frame = Frame::new(0, 0, 12, 40, SecurityTag::BlueWork).into();
    let canvas = painted(12, 40, 0, &[beneath, frame]);
    assert_eq!(with_top(&canvas, 0xFF).len(), 480);
    for (x, word) in [(3, 0xFF1A73E8), (4, 0xFF121418), (5, 0xFF13161B)] {
        assert_eq!(canvas.pixel(x, 30), Some(word));
    }

    let above = StraightCopy::new(0, 6, 30).into();
    let canvas = painted(12, 40, 0, &[beneath, frame, above]);
    let copied = (30..33).flat_map(|y| (6..9).map(move |x| (x, y)));
    assert_eq!(with_top(&canvas, 0), copied.collect::<Vec<_>>());
    assert_eq!(with_top(&canvas, 0xFF).len(), 471);
    for (x, word) in [(5, 0xFF13161B), (6, CLEAN), (8, CLEAN), (9, 0xFF1A73E8)] {
        assert_eq!(canvas.pixel(x, 31), Some(word));
    }
}

#[test]
fn a_scaled_copy_has_none() {
    // Half of the first and of the last column is covered.
    let copy = ScaledCopy::new(0, Rect::new(1.5, 1.0, 6.0, 6.0));
    let canvas = painted(9, 8, GROUND, &[copy.into()]);
    let (g, h, c) = (GROUND, 0x0009121B, CLEAN);
    let row = [g, h, c, c, c, c, c, h, g];
    let rows = [[g; 9], row, row, row, row, row, row, [g; 9]];
    assert_eq!(canvas.pixels(), rows.concat());
}

#[test]
fn a_genie_has_none() {
    // Its three rows lie in row 1 of the canvas, from column 1.5 to column 25.5.
    let there = Genie::new(0, BOX, Point::new(13.5, 1.5), 1.0);
    let canvas = painted(27, 3, GROUND, &[there.into()]);
    let (g, h, c) = (GROUND, 0x000F1E2D, CLEAN);
    let row = [&[g, h][..], &[c; 23], &[h, g]].concat();
    assert_eq!(canvas.pixels(), [vec![g; 27], row, vec![g; 27]].concat());
}

/// A word with a top byte that no layer writes.
fn varied(place: u32) -> u32 {
    let (top, color) = (1 + place % 254, (0x050B11 * place) & 0xFFFFFF);
    top << 24 | color
}

fn varied_canvas() -> Canvas {
    Canvas::from_pixels(32, 40, (0..32 * 40).map(varied).collect()).expect("a canvas")
}

/// How many pixels the layer paints: all lie in its box and have this top byte. The others keep
/// their words.
fn paints(layer: impl Into<Layer>, top: u32) -> usize {
    let layers = [layer.into()];
    let (before, sources) = (varied_canvas(), sources(|_| KEYED));
    let after = over(before.clone(), &sources, &layers);
    let forecast = forecast(&rundown(&layers), 32, 40, sources.table()).expect("accepted");
    let IRect { x0, y0, x1, y1 } = forecast.boxes()[0].expect("a box");
    let words = (0..).zip(before.pixels().iter().zip(after.pixels()));
    let changed: Vec<_> = words.filter(|(_, (old, new))| old != new).collect();
    for (i, (_, new)) in &changed {
        let (x, y) = (i % 32, i / 32);
        assert!((x0..x1).contains(&x) && (y0..y1).contains(&y), "({x}, {y})");
        assert_eq!(*new >> 24, top, "({x}, {y}) of {layers:?}");
    }
    changed.len()
}

#[test]
fn shapes_clear_what_they_paint() {
    let fill = Fill::new(BOX, Color::WHITE).with_radius(4.0);
    assert_eq!(paints(fill, 0), 60);
    assert_eq!(paints(Fill::new(BOX, Color::rgba(9, 9, 9, 0)), 0), 0);
    assert_eq!(paints(Stroke::new(BOX, 2.0, Color::WHITE), 0), 48);
    assert_eq!(paints(Shadow::new(BOX, 2.0, Color::BLACK), 0), 140);
}

#[test]
fn panels_clear_and_frames_set_what_they_paint() {
    let glass = Glass::new(BOX, 3.0);
    assert_eq!(paints(glass, 0), 64);
    assert_eq!(paints(glass.with_radius(4.0), 0), 60);
    let frame = Frame::new(4, 4, 8, 34, SecurityTag::BlueWork);
    assert_eq!(paints(frame, 0xFF), 8 * 34);
    assert_eq!(paints(frame.with_xray(true), 0xFF), 8 * 34);
}

#[test]
fn straight_copies_clear_what_they_paint() {
    let copy = StraightCopy::new(1, 4, 4);
    assert_eq!(paints(copy, 0), 64);
    assert_eq!(paints(copy.with_radius(4.0), 0), 60);
    assert_eq!(paints(copy.with_alpha(0), 0), 60);
    assert_eq!(paints(copy.with_clip(IRect::new(6, 0, 32, 7)), 0), 18);
    assert_eq!(paints(StraightCopy::new(1, -4, -4), 0), 16);
    let round = StraightCopy::new(2, 4, 4).with_radius(4.0);
    assert_eq!(paints(round, 0), 140);
    // At each corner a square of five pixels a side is left.
    assert_eq!(paints(round.with_alpha(0), 0), 44);
}

#[test]
fn other_copies_clear_what_they_paint() {
    let copy = ScaledCopy::new(0, Rect::new(4.5, 4.0, 8.0, 8.0));
    assert_eq!(paints(copy, 0), 72);
    assert_eq!(paints(copy.with_alpha(1.0 / 512.0), 0), 72);
    assert_eq!(paints(copy.with_alpha(0.0), 0), 0);
    let genie = |t| Genie::new(0, BOX, Point::new(13.5, 20.5), t);
    assert_eq!(paints(genie(1.0), 0), 25);
    assert_eq!(paints(genie(1.0).with_alpha(0.0), 0), 25);
    assert_eq!(paints(genie(0.0), 0), 60);
}

/// The layer's words do not depend on the sources' top bytes.
fn agrees(layer: impl Into<Layer>) {
    let layers = [layer.into()];
    let clean = over(varied_canvas(), &sources(|i| varied(i) & 0xFFFFFF), &layers);
    let keyed = over(varied_canvas(), &sources(varied), &layers);
    assert_eq!(clean.pixels(), keyed.pixels(), "{layers:?}");
}

#[test]
fn a_source_s_top_bytes_do_not_matter() {
    for (alpha, dim) in (0..=255).flat_map(|alpha| [(alpha, 0), (alpha, 100)]) {
        for radius in [0.0, 0.5, 4.0] {
            let copy = StraightCopy::new(2, 3, 2).with_radius(radius);
            agrees(copy.with_alpha(alpha).with_dim(dim));
        }
    }
    for i in 0..=64u8 {
        let (part, side) = (f32::from(i) / 64.0, f32::from(12 + i % 8));
        let copy = ScaledCopy::new(2, Rect::new(3.25, 2.5, side, side));
        agrees(copy.with_radius(f32::from(i % 5)).with_alpha(part));
        agrees(Genie::new(2, BOX, Point::new(15.25, 33.0), part).with_alpha(1.0 - part / 2.0));
    }
}
