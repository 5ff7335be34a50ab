//! What a program may do with the crate's types: keep them in maps, log them, walk through them, and
//! use them from several threads.
mod common;

use common::block;
use std::collections::HashSet;
use std::fmt::Debug;
use std::hash::Hash;
use std::thread;
use tiglostrema::{
    dearest, play, stain, Canvas, Cause, Color, Dearest, Fill, Forecast, Glass, IRect, Iter, Kind,
    Layer, Paint, Playing, Point, Rect, Refusal, Rundown, Scratch, SecurityTag, Source, SourceId,
    SourceTable, Sources, Stain, StraightCopy,
};

fn shared<T: Send + Sync + Debug>() {}
fn key<T: Clone + Eq + Hash>() {}

#[test]
fn every_type_may_go_to_another_thread() {
    shared::<(Rundown, Iter<'_>, Playing<'_>, Layer, Kind, Paint)>();
    shared::<(Canvas, Source<'_>, Sources, SourceTable, SourceId)>();
    shared::<(
        Scratch,
        Stain,
        Forecast,
        Dearest,
        Refusal,
        Cause,
        SecurityTag,
    )>();
    shared::<(Color, IRect, Rect, Point)>();
}

#[test]
fn what_can_be_compared_can_be_a_key() {
    key::<(Rundown, Canvas, Source<'_>, Sources, SourceTable)>();
    key::<(
        SourceId,
        Stain,
        Forecast,
        Dearest,
        Refusal,
        Cause,
        Kind,
        SecurityTag,
        Color,
        IRect,
    )>();
    let one = Rundown::from_bytes(&block(1, StraightCopy::new(0, 0, 0))).expect("a block");
    let seen = HashSet::from([one.clone(), one.clone(), Rundown::new()]);
    assert_eq!(seen.len(), 2);
    assert_eq!(Rundown::try_from(one.as_bytes()), Ok(one));
}

/// A show of a copy beneath glass, with its sources.
fn show() -> (Rundown, Sources) {
    let mut sources = Sources::new();
    let pixels: Vec<u32> = (0..32 * 32).map(|i| i * 4099).collect();
    let source = Source::new(32, 32, &pixels).expect("a source");
    let source = sources.push(source).expect("room");
    let mut rundown = Rundown::new();
    let glass = Glass::new(Rect::new(4.0, 4.0, 40.0, 40.0), 6.0);
    rundown.add(2, glass).expect("in range");
    let copy = StraightCopy::new(source, 8, 8);
    rundown.add(1, copy).expect("in range");
    (rundown, sources)
}

fn picture(rundown: &Rundown, sources: &Sources) -> Canvas {
    let mut canvas = Canvas::new(48, 48).expect("a canvas");
    play(rundown, &mut canvas, sources, &mut Scratch::new()).expect("accepted");
    canvas
}

#[test]
fn threads_that_share_a_show_paint_the_same_picture() {
    let (rundown, sources) = show();
    let expected = picture(&rundown, &sources);
    thread::scope(|scope| {
        let paint = || (0..20).all(|_| picture(&rundown, &sources) == expected);
        let threads = [(); 4].map(|()| scope.spawn(paint));
        for thread in threads {
            assert!(thread.join().expect("no panic"));
        }
    });
}

#[test]
fn a_picture_is_short_in_a_log() {
    let canvas = Canvas::from_pixels(2, 1, vec![0x112233, 0xFF445566]).expect("a canvas");
    let words = "Canvas { width: 2, height: 1, pixels: [00112233 FF445566] }";
    assert_eq!(format!("{canvas:?}"), words);
    let (rundown, mut sources) = show();
    sources
        .push(Source::new(1, 1, &[7]).expect("a source"))
        .expect("room");
    sources.remove(1).expect("there");
    let first = "[00000000 00001003 00002006 00003009 0000400C 0000500F 00006012 00007015";
    let words = format!(
        "{{SourceId(0): Source {{ width: 32, height: 32, pixels: {first} .. 1024 in all] }}}}"
    );
    assert_eq!(format!("{sources:?}"), words);
    let table = sources.table();
    assert_eq!(format!("{table:?}"), "[Some((32, 32)), None]");
    let stain = stain(&rundown, 48, 48, table, 0).expect("accepted");
    let words = "Stain { width: 48, height: 48, count: 1600 }";
    assert_eq!(format!("{stain:?}"), words);
    let scratch = Scratch::for_canvas(2, 2);
    assert_eq!(format!("{scratch:?}"), "Scratch { len: 12 }");
    let panel = dearest(1920, 1080, 9.0).expect("in range");
    let words = format!("Dearest {{ scratch: 388800, glass: {:?} }}", panel.glass());
    assert_eq!(format!("{panel:?}"), words);
    let (mut canvas, mut scratch) = (canvas, Scratch::new());
    let mut playing =
        Playing::begin(&rundown, &mut canvas, &mut sources, &mut scratch).expect("accepted");
    playing.step();
    let canvas = "Canvas { width: 2, height: 1, pixels: [00112233 FF445566] }";
    let words = format!("Playing {{ count: 2, last: Some(1), canvas: {canvas} }}");
    assert_eq!(format!("{playing:?}"), words);
}

#[test]
fn layers_are_walked_from_both_ends() {
    let mut rundown = Rundown::new();
    for priority in [3, 1, 2] {
        let fill = Fill::new(Rect::default(), Color::WHITE).with_radius(f32::from(priority));
        rundown.add(priority, fill).expect("in range");
    }
    let all: Vec<_> = rundown.iter().collect();
    let mut back: Vec<_> = rundown.iter().rev().collect();
    back.reverse();
    assert_eq!(back, all);
    for n in 0..4 {
        assert_eq!(rundown.iter().nth(n), all.get(n).copied());
    }
    let order = rundown.in_playing_order();
    assert_eq!(order.len(), 3);
    assert!(order.map(|(priority, _)| priority).rev().eq([3, 2, 1]));
}

#[test]
fn kinds_have_their_numbers() {
    let known = (0..=255).filter_map(Kind::from_number);
    assert!(known.eq(Kind::ALL.iter().copied()));
    assert!(Kind::ALL.iter().map(|kind| kind.number()).eq(1..=8));
}
