//! The stain of a source, and that two plays agree outside it.
mod common;

use tiglostrema::{
    play, raw, stain, Canvas, Cause, Color, Fill, Frame, Genie, Glass, IRect, Layer, Point, Rect,
    Rundown, ScaledCopy, Scratch, SecurityTag, Shadow, Source, SourceTable, Sources, Stain,
    StraightCopy, Stroke,
};

const WIDTH: u32 = 64;
const HEIGHT: u32 = 32;
/// The hidden source, 4 by 4 pixels.
const CALL: u32 = 0;
/// Another, 16 by 8 pixels.
const INTERPRETER: u32 = 1;

fn rundown(layers: &[Layer]) -> Rundown {
    let mut rundown = Rundown::new();
    for (priority, layer) in (1..).zip(layers) {
        rundown.add(priority, *layer).expect("in range");
    }
    rundown
}

fn sources(call: u32) -> Sources {
    let mut sources = Sources::new();
    for source in [
        Source::new(4, 4, &[call; 16]),
        Source::new(16, 8, &[0x336699; 128]),
    ] {
        sources.push(source.expect("a source")).expect("room");
    }
    sources
}

fn played(rundown: &Rundown, call: u32) -> Canvas {
    let mut canvas = Canvas::new(WIDTH, HEIGHT).expect("a canvas");
    canvas.fill(Color::hex(0x223344));
    play(rundown, &mut canvas, &sources(call), &mut Scratch::new()).expect("accepted");
    canvas
}

/// The call's stain. Plays with other pixels in the call agree outside it.
fn stained(layers: &[Layer]) -> Stain {
    let rundown = rundown(layers);
    let stain = stain(&rundown, WIDTH, HEIGHT, sources(0).table(), CALL).expect("accepted");
    let [one, other] = [0, 0xFFFFFF].map(|call| played(&rundown, call));
    let pixels = one.pixels().iter().zip(other.pixels());
    for ((one, other), stained) in pixels.zip(stain.as_bytes()) {
        assert!(one == other || *stained == 1);
    }
    stain
}

/// The stain is these rectangles, which do not overlap, and no more.
fn is(stain: &Stain, rects: &[IRect]) {
    let all: u64 = rects.iter().map(IRect::area).sum();
    assert_eq!(stain.count() as u64, all);
    for rect in rects {
        assert_eq!(stain.share_in(*rect), 1.0, "{rect:?}");
    }
}

fn call(x: i32, y: i32) -> StraightCopy {
    StraightCopy::new(CALL, x, y)
}

#[test]
fn without_a_copy_of_it_there_is_none() {
    is(&stained(&[]), &[]);
    let others: [Layer; 3] = [
        StraightCopy::new(INTERPRETER, 0, 0).into(),
        ScaledCopy::new(INTERPRETER, Rect::new(0.0, 0.0, 40.0, 20.0)).into(),
        Glass::new(Rect::new(0.0, 0.0, 64.0, 32.0), 8.0).into(),
    ];
    is(&stained(&others), &[]);
}

#[test]
fn a_copy_stains_its_box() {
    is(&stained(&[call(10, 5).into()]), &[IRect::new(10, 5, 14, 9)]);
    is(
        &stained(&[call(62, -1).into()]),
        &[IRect::new(62, 0, 64, 3)],
    );
    let clip = IRect::new(0, 6, 12, 99);
    is(
        &stained(&[call(10, 5).with_clip(clip).into()]),
        &[IRect::new(10, 6, 12, 9)],
    );
    let scaled = ScaledCopy::new(CALL, Rect::new(10.5, 5.0, 8.0, 7.25));
    is(&stained(&[scaled.into()]), &[IRect::new(10, 5, 19, 13)]);
    let genie = Genie::new(
        CALL,
        Rect::new(0.0, 0.0, 4.0, 4.0),
        Point::new(9.0, 9.0),
        0.5,
    );
    let clip = IRect::new(1, 2, 30, 20);
    is(&stained(&[genie.with_clip(clip).into()]), &[clip]);
}

#[test]
fn an_exact_copy_of_another_source_cleans_its_box() {
    let over = StraightCopy::new(INTERPRETER, 12, 2);
    let half = [IRect::new(10, 5, 12, 9)];
    let whole = [IRect::new(10, 5, 14, 9)];
    is(&stained(&[call(10, 5).into(), over.into()]), &half);
    is(&stained(&[over.into(), call(10, 5).into()]), &whole);
    for inexact in [
        over.with_alpha(254),
        over.with_dim(1),
        over.with_radius(0.5),
    ] {
        is(&stained(&[call(10, 5).into(), inexact.into()]), &whole);
    }
    is(
        &stained(&[call(10, 5).into(), over.with_radius(-0.0).into()]),
        &half,
    );
    let clip = IRect::new(0, 0, 64, 6);
    let clipped = over.with_clip(clip).into();
    let rest = [IRect::new(10, 5, 12, 9), IRect::new(12, 6, 14, 9)];
    is(&stained(&[call(10, 5).into(), clipped]), &rest);
}

#[test]
fn glass_is_stained_through_its_window_alone() {
    // Blur 1: the window is the panel grown by 2 × 1 + 3 = 5 pixels.
    let panel = Glass::new(Rect::new(30.0, 8.0, 10.0, 10.0), 1.0);
    let own = |x| IRect::new(x, 10, x + 4, 14);
    is(&stained(&[call(21, 10).into(), panel.into()]), &[own(21)]);
    let reached = [own(22), IRect::new(30, 8, 40, 18)];
    is(&stained(&[call(22, 10).into(), panel.into()]), &reached);
    // Beneath the call the panel is clean.
    is(&stained(&[panel.into(), call(22, 10).into()]), &[own(22)]);
    // A bezel's largest displacement widens the window, by 4 pixels here, the most that it allows.
    let mut table = [0.0; 33];
    table[7] = 4.0;
    let bent = panel.with_bezel(2.5, table);
    is(&stained(&[call(17, 10).into(), bent.into()]), &[own(17)]);
    let reached = [own(18), IRect::new(30, 8, 40, 18)];
    is(&stained(&[call(18, 10).into(), bent.into()]), &reached);
    // Half a pixel of bezel has no displacement.
    is(
        &stained(&[call(18, 10).into(), panel.with_bezel(0.5, table).into()]),
        &[own(18)],
    );
    // A clip cuts the panel's box and not its window.
    let clip = IRect::new(39, 0, 64, 32);
    let reached = [own(22), IRect::new(39, 8, 40, 18)];
    is(
        &stained(&[call(22, 10).into(), panel.with_clip(clip).into()]),
        &reached,
    );
}

#[test]
fn glass_does_show_what_lies_beside_it() {
    let panel = Glass::new(Rect::new(30.0, 8.0, 10.0, 10.0), 4.0);
    let beside = rundown(&[call(26, 10).into(), panel.into()]);
    let [dark, bright] = [0, 0xFFFFFF].map(|call| played(&beside, call).pixel(31, 12));
    assert!(dark < bright, "the call shows inside the panel");
    let over = StraightCopy::new(INTERPRETER, 28, 10);
    let covered = rundown(&[call(26, 10).into(), panel.into(), over.into()]);
    let [dark, bright] = [0, 0xFFFFFF].map(|call| played(&covered, call).pixel(31, 12));
    assert_eq!(dark, bright, "and not through the exact copy over it");
}

#[test]
fn a_stained_panel_stains_the_next_one() {
    let panel = |x| Glass::new(Rect::new(x, 8.0, 10.0, 10.0), 1.0);
    let chain = [call(22, 10).into(), panel(30.0).into(), panel(44.0).into()];
    let own = IRect::new(22, 10, 26, 14);
    let reached = [own, IRect::new(30, 8, 40, 18), IRect::new(44, 8, 54, 18)];
    is(&stained(&chain), &reached);
    // An exact copy over the first one cuts the chain.
    let over = StraightCopy::new(INTERPRETER, 20, 10);
    let cut = [chain[0], over.into(), chain[1], chain[2]];
    is(&stained(&cut), &[]);
}

#[test]
fn other_layers_change_nothing() {
    let all = Rect::new(0.0, 0.0, 64.0, 32.0);
    let own = [IRect::new(10, 5, 14, 9)];
    let others: [Layer; 4] = [
        Fill::new(all, Color::BLACK).into(),
        Stroke::new(all, 20.0, Color::BLACK).into(),
        Shadow::new(all, 10.0, Color::BLACK).into(),
        Frame::new(0, 0, 64, 32, SecurityTag::RedUntrustedNet).into(),
    ];
    for layer in others {
        is(&stained(&[call(10, 5).into(), layer]), &own);
    }
}

#[test]
fn shares_and_places() {
    let stain = stained(&[call(10, 5).into()]);
    assert_eq!((stain.width(), stain.height()), (WIDTH, HEIGHT));
    assert!(stain.is_stained(13, 8) && !stain.is_stained(14, 8) && !stain.is_stained(13, 9));
    assert!(!stain.is_stained(10, HEIGHT) && !stain.is_stained(WIDTH + 10, 5));
    assert_eq!(stain.share_in(IRect::new(8, 5, 12, 9)), 0.5);
    assert_eq!(stain.share_in(IRect::new(-99, -99, 0, 0)), 0.0);
    assert_eq!(stain.count_in(IRect::EVERYWHERE), 16);
    assert_eq!(stain.share_in(IRect::EVERYWHERE), 16.0 / 2048.0);
    let other = rundown(&[call(10, 5).into()]);
    let none = tiglostrema::stain(&other, WIDTH, HEIGHT, sources(0).table(), INTERPRETER);
    is(&none.expect("accepted"), &[]);
}

#[test]
fn it_is_refused_as_a_play_is() {
    let table = sources(0);
    let table = table.table();
    let cause = |rundown: &Rundown, width| {
        stain(rundown, width, HEIGHT, table, CALL)
            .map_err(|refusal| (refusal.cause(), refusal.block()))
    };
    let absent = rundown(&[call(0, 0).into(), StraightCopy::new(2, 0, 0).into()]);
    assert_eq!(cause(&absent, WIDTH), Err((Cause::NoSuchSource, Some(1))));
    let wide = rundown(&[Frame::new(1, 0, WIDTH, 9, SecurityTag::BlueWork).into()]);
    assert_eq!(cause(&wide, WIDTH), Err((Cause::FrameTooWide, Some(0))));
    assert_eq!(cause(&wide, 0), Err((Cause::CanvasSize, None)));
    assert_eq!(cause(&wide, u32::MAX), Err((Cause::CanvasSize, None)));
}

#[test]
fn a_source_beyond_the_table_is_refused() {
    let rundown = rundown(&[call(10, 5).into()]);
    let (none, two) = (SourceTable::new(), sources(0));
    let wrong = [
        (
            two.table(),
            2,
            "there is no source 2, the last is 1 (cause 9)",
        ),
        (
            two.table(),
            u32::MAX,
            "there is no source 4294967295, the last is 1 (cause 9)",
        ),
        (&none, 0, "there is no source 0, nor any other (cause 9)"),
    ];
    for (table, source, words) in wrong {
        let refusal = stain(&rundown, WIDTH, HEIGHT, table, source).expect_err("refused");
        assert_eq!(
            (refusal.cause(), refusal.block()),
            (Cause::NoSuchSource, None)
        );
        assert_eq!(refusal.to_string(), words);
        let mut out = [9; 6];
        let raw = raw::stain_into(&common::copy(4), 3, 2, table.as_words(), source, &mut out);
        assert_eq!((raw, out), (Err(refusal), [9; 6]));
    }
}

#[test]
fn lent_slices_are_tested_in_full() {
    let good = common::copy(4);
    let answer = |rundown: &[u8], table: &[u32], out: &mut [u8]| {
        let before = out.to_vec();
        let answer = raw::stain_into(rundown, 3, 2, table, CALL, out);
        assert!(answer.is_ok() || before == out, "a refusal changes nothing");
        answer.map_err(|refusal| refusal.cause())
    };
    let mut out = [9; 6];
    assert_eq!(
        answer(&good, &[2, 1], &mut out[..5]),
        Err(Cause::CanvasSize)
    );
    assert_eq!(answer(&good, &[2], &mut out), Err(Cause::SourceTable));
    assert_eq!(answer(&good, &[2, 4097], &mut out), Err(Cause::SourceTable));
    assert_eq!(
        answer(&good[1..], &[2, 1], &mut out),
        Err(Cause::RundownLength)
    );
    assert_eq!(answer(&[1; 512], &[2, 1], &mut out), Err(Cause::Check));
    assert_eq!(answer(&[0; 512], &[2, 1], &mut out), Err(Cause::Form));
    let twice = [&good[..], &good[..]].concat();
    assert_eq!(
        answer(&twice, &[2, 1], &mut out),
        Err(Cause::DuplicatePriority)
    );
    assert_eq!(out, [9; 6]);
    assert_eq!(answer(&good, &[2, 1], &mut out), Ok(1));
    assert_eq!(out, [1, 1, 0, 0, 0, 0]);
}
