//! Canvases, sources and scratch.
use tiglostrema::{
    play, Canvas, Cause, Color, Frame, Glass, IRect, Rect, Refusal, Rundown, Scratch, SecurityTag,
    Source, SourceId, SourceTable, Sources, StraightCopy, MAX_SIDE, MAX_SOURCES,
};

fn cause<T>(answer: Result<T, Refusal>) -> Option<Cause> {
    answer.err().map(|refusal| refusal.cause())
}

#[test]
fn a_canvas_is_1_to_4096_pixels_a_side() {
    for (width, height) in [(0, 1), (1, 0), (4097, 1), (1, 4097), (u32::MAX, u32::MAX)] {
        assert_eq!(cause(Canvas::new(width, height)), Some(Cause::CanvasSize));
    }
    assert_eq!(
        cause(Canvas::from_pixels(2, 2, vec![0; 3])),
        Some(Cause::CanvasSize)
    );
    let canvas = Canvas::new(MAX_SIDE, 1).expect("the widest");
    assert_eq!((canvas.width(), canvas.height()), (4096, 1));
}

#[test]
fn a_wrong_size_or_length_is_said_with_its_numbers() {
    let words = |answer: Result<(), Refusal>| answer.expect_err("refused").to_string();
    let canvas =
        |width, height, len| words(Canvas::from_pixels(width, height, vec![0; len]).map(|_| ()));
    let source = |width, height, len| words(Source::new(width, height, &vec![0; len]).map(|_| ()));
    assert_eq!(
        canvas(1920, 2, 3841),
        "pixels given for the canvas: 3841, not 1920 × 2 = 3840 (cause 1)"
    );
    assert_eq!(
        source(1920, 1, 1919),
        "pixels given for the source: 1919, not 1920 × 1 = 1920 (cause 2)"
    );
    assert_eq!(
        canvas(4097, 1, 4097),
        "the canvas is 4097 × 1 pixels, and a side has 1 to 4096 (cause 1)"
    );
    assert_eq!(
        source(0, 3, 0),
        "the source is 0 × 3 pixels, and a side has 1 to 4096 (cause 2)"
    );
    assert_eq!(
        words(Canvas::new(u32::MAX, 7).map(|_| ())),
        "the canvas is 4294967295 × 7 pixels, and a side has 1 to 4096 (cause 1)"
    );
}

#[test]
fn a_canvas_knows_its_pixels() {
    let mut canvas = Canvas::from_pixels(3, 2, vec![1, 2, 3, 4, 5, 6]).expect("a canvas");
    assert_eq!(canvas.pixel(2, 1), Some(6));
    assert_eq!((canvas.pixel(3, 0), canvas.pixel(0, 2)), (None, None));
    canvas.pixels_mut()[0] = 9;
    assert_eq!(canvas.clone().into_pixels(), [9, 2, 3, 4, 5, 6]);
    canvas.fill(Color::hex(0x123456));
    assert_eq!(canvas.pixels(), [0x123456; 6]);
}

#[test]
fn sources_stand_one_behind_the_other() {
    let mut sources = Sources::new();
    assert!(sources.is_empty());
    let first = Source::new(2, 1, &[1, 2]).expect("a source");
    let second = Source::new(1, 3, &[3, 4, 5]).expect("a source");
    assert_eq!(sources.push(first), Ok(SourceId::new(0)));
    assert_eq!(sources.push(second), Ok(SourceId::new(1)));
    assert_eq!(sources.pool(), [1, 2, 3, 4, 5]);
    assert_eq!(sources.table().as_words(), [2, 1, 1, 3]);
    assert_eq!(sources.get(1), Some(second));
    assert_eq!(sources.get(2), None);
    assert_eq!(sources.pixels_mut(2), None);
    sources.pixels_mut(1).expect("there").fill(7);
    assert_eq!(sources.pool(), [1, 2, 7, 7, 7]);
}

#[test]
fn there_are_at_most_16_sources_of_1_to_4096_pixels_a_side() {
    assert_eq!(cause(Source::new(0, 1, &[])), Some(Cause::SourceTable));
    assert_eq!(cause(Source::new(2, 1, &[1])), Some(Cause::SourceTable));
    let mut sources = Sources::new();
    for number in 0..MAX_SOURCES as u32 {
        assert_eq!(
            sources.push(Source::new(1, 1, &[number]).expect("a source")),
            Ok(SourceId::new(number))
        );
    }
    let before = sources.clone();
    let more = Source::new(1, 1, &[0]).expect("a source");
    assert_eq!(cause(sources.push(more)), Some(Cause::SourceTable));
    assert_eq!(sources, before);
    let mut table = SourceTable::new();
    assert_eq!(cause(table.push(4097, 1)), Some(Cause::SourceTable));
    assert_eq!(
        (table.push(4096, 7), table.size(0)),
        (Ok(SourceId::new(0)), Some((4096, 7)))
    );
}

#[test]
fn a_canvas_may_be_the_next_ones_source() {
    let canvas = Canvas::from_pixels(2, 1, vec![0x112233, 0x445566]).expect("a canvas");
    let mut sources = Sources::new();
    let number = sources.push(Source::from(&canvas)).expect("room");
    let mut rundown = Rundown::new();
    rundown
        .add(1, StraightCopy::new(number, 0, 0))
        .expect("in range");
    let mut next = Canvas::new(2, 1).expect("a canvas");
    play(&rundown, &mut next, &sources, &mut Scratch::new()).expect("accepted");
    assert_eq!(next, canvas);
}

#[test]
fn scratch_grows_to_what_the_panel_needs() {
    let mut scratch = Scratch::new();
    let mut rundown = Rundown::new();
    let panel = Glass::new(Rect::new(0.0, 0.0, 30.0, 20.0), 2.0);
    rundown
        .add(1, panel.with_bezel(256.0, [0.0; 33]))
        .expect("in range");
    // It looks 7 pixels beyond its edges.
    for (width, height, len) in [(30, 20, 1800), (10, 10, 1800), (40, 20, 2220)] {
        let mut canvas = Canvas::new(width, height).expect("a canvas");
        assert_eq!(
            play(&rundown, &mut canvas, &Sources::new(), &mut scratch),
            Ok(1)
        );
        assert_eq!(scratch.len(), len);
    }
    assert_eq!(Scratch::for_canvas(40, 20).len(), 2400);
    assert_eq!(Scratch::for_canvas(u32::MAX, 1).len(), 3 * 4096);
}

#[test]
fn pictures_do_not_depend_on_the_scratch() {
    let mut rundown = Rundown::new();
    rundown
        .add(1, StraightCopy::new(0, 3, 3))
        .expect("in range");
    rundown
        .add(2, Glass::new(Rect::new(0.0, 0.0, 16.0, 16.0), 3.0))
        .expect("in range");
    let mut sources = Sources::new();
    sources
        .push(Source::new(4, 4, &[0xFFFFFF; 16]).expect("a source"))
        .expect("room");
    let mut scratch = Scratch::new();
    let pictures = [0, 1].map(|_| {
        let mut canvas = Canvas::new(16, 16).expect("a canvas");
        play(&rundown, &mut canvas, &sources, &mut scratch).expect("accepted");
        canvas
    });
    assert_eq!(pictures[0], pictures[1]);
    assert_ne!(
        pictures[0].pixel(1, 1),
        Some(0),
        "the copy shows beyond its edge"
    );
}

#[test]
fn rectangles_of_pixels() {
    let rect = IRect::new(-2, 0, 5, 3);
    assert_eq!(
        rect.intersect(&IRect::new(0, 1, 9, 9)),
        IRect::new(0, 1, 5, 3)
    );
    assert!(rect.intersect(&IRect::new(5, 0, 6, 3)).is_empty());
    assert_eq!((rect.area(), IRect::new(3, 0, 2, 9).area()), (21, 0));
    assert_eq!(
        IRect::new(i32::MIN, i32::MIN, i32::MAX, i32::MAX).area(),
        u64::from(u32::MAX).pow(2)
    );
    assert_eq!(IRect::default(), IRect::EVERYWHERE);
}

#[test]
fn a_frame_that_is_too_wide_says_where_it_ends() {
    let mut rundown = Rundown::new();
    let frame = Frame::new(30, 0, 35, 2, SecurityTag::AmberUsb);
    rundown.add(7, frame).expect("in range");
    let mut canvas = Canvas::new(64, 2).expect("a canvas");
    let before = canvas.clone();
    let played = play(&rundown, &mut canvas, &Sources::new(), &mut Scratch::new());
    let words =
        "block 0, priority 7: the frame ends at column 65, and the canvas is 64 wide (cause 10)";
    assert_eq!(played.expect_err("too wide").to_string(), words);
    assert_eq!(canvas, before);
}
