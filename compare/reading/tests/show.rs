//! 01's sentences on play, boxes and the stain, one by one, put to the reading.
mod given;

use given::{block, exact, float, glass, show, H, W};
use reading::{Area, Cause, Effect, Glass, Kind, Layer, Show, Stain, BLOCK, BODY, MOST};

fn refused(show: Show) -> (u32, usize) {
    let (cause, beside) = show.answer().expect_err("it is refused");
    (cause as u32, beside)
}

#[test]
fn the_first_three_tests_in_their_order() {
    let odd = [0; 5];
    let wrong = Show {
        width: 0,
        table: &[1],
        ..show(&odd)
    };
    assert_eq!(refused(wrong), (1, 0));
    assert_eq!(refused(Show { width: W, ..wrong }), (2, 0));
    assert_eq!(refused(show(&odd)), (3, 0));
    assert_eq!(show(&[]).answer(), Ok(0));
}

#[test]
fn nothing_passes_by_wrapping() {
    let none = Show {
        width: 1 << 16,
        height: 1 << 16,
        canvas: 0,
        ..show(&[])
    };
    assert_eq!(refused(none), (1, 0));
    let none = Show {
        table: &[1 << 16, 1 << 16],
        pool: 0,
        ..show(&[])
    };
    assert_eq!(refused(none), (2, 0));
}

#[test]
fn one_block_is_judged_to_the_end_before_the_next() {
    let mut wrong = exact(2, 0, 0, 0);
    wrong[BODY] ^= 1;
    let absent = exact(1, 2, 0, 0);
    let beyond = block(8, 3, &[(8, W), (16, 1)]);
    assert_eq!(refused(show(&[absent, wrong].concat())), (9, 0));
    assert_eq!(refused(show(&[beyond, wrong].concat())), (10, 0));
    assert_eq!(refused(show(&[wrong, absent].concat())), (4, 0));
    let twice = [exact(7, 0, 0, 0), exact(7, 1, 0, 0)].concat();
    assert_eq!(refused(show(&twice)), (8, 1));
    let later = [twice, beyond.to_vec()].concat();
    assert_eq!(refused(show(&later)), (10, 2));
}

#[test]
fn a_frame_may_stand_at_the_canvas_s_end() {
    assert_eq!(show(&block(8, 1, &[(8, W)])).answer(), Ok(1));
    let low = block(8, 1, &[(12, 16384), (16, W), (20, 4096)]);
    assert_eq!(show(&low).answer(), Ok(1));
}

#[test]
fn scratch_is_tested_last_and_in_the_buffer_s_order() {
    // windows of 5 by 5 and of 8 by 5 pixels
    let both = [glass(2, 0.0), glass(1, 5.0)].concat();
    let with = |scratch| Show {
        scratch,
        ..show(&both)
    };
    assert_eq!(with([120, 120]).answer(), Ok(2));
    assert_eq!(refused(with([119, 120])), (11, 1));
    assert_eq!(refused(with([120, 119])), (11, 1));
    assert_eq!(refused(with([74, 0])), (11, 0));
    let twice = [glass(1, 0.0), glass(1, 5.0)].concat();
    let none = Show {
        scratch: [0, 0],
        ..show(&twice)
    };
    assert_eq!(refused(none), (8, 1));
}

#[test]
fn a_rundown_has_at_most_256_blocks() {
    let blocks = |n: u16| -> Vec<u8> { (0..n).flat_map(|p| exact(p, 0, 0, 0)).collect() };
    assert_eq!(show(&blocks(256)).answer(), Ok(MOST));
    assert_eq!(refused(show(&blocks(257))), (3, 0));
}

fn area(show: Show) -> Area {
    let layer = show.layers().next().expect("there is a layer");
    show.area(&layer)
}

#[test]
fn boxes() {
    let rect = [
        float(32, 2.5),
        float(36, 3.0),
        float(40, 0.0),
        float(44, 1.5),
    ];
    let at = |kind| area(show(&block(kind, 1, &rect)));
    for kind in [1, 2, 3, 6] {
        assert_eq!(at(kind), Area::new([2, 3, 3, 5]), "kind {kind}");
    }
    assert!(at(4).is_empty());
    assert_eq!(at(7), Area::canvas(W, H));
    let wide = [float(52, 1.0), rect[0], rect[1], rect[2], rect[3]];
    assert_eq!(
        area(show(&block(3, 1, &wide))),
        Area::new([1, 2, 4, 6]),
        "a shadow's blur"
    );
    assert_eq!(area(show(&exact(1, 0, 18, 9))), Area::new([18, 9, 20, 10]));
    let frame = [(8, 3), (12, 4), (16, 5), (20, 4000), (244, 0)];
    assert_eq!(
        area(show(&block(8, 1, &frame))),
        Area::new([3, 4, 8, 10]),
        "a frame ignores its clip"
    );
}

#[test]
fn a_window_grows_by_blur_and_table() {
    let glass = |blur: f32, bezel: f32| Glass {
        rect: [10.0, 5.0, 2.0, 2.0],
        radius: 0.0,
        blur,
        tint: [0; 4],
        saturation: 1.0,
        brightness: 0.0,
        bezel,
        spec: 0.0,
        table: std::array::from_fn(|i| if i == 7 { 1.25 } else { 0.0 }),
    };
    let canvas = Area::canvas(100, 100);
    assert_eq!(glass(0.0, 0.5).window(canvas), Area::new([7, 2, 15, 10]));
    assert_eq!(glass(0.0, 0.6).window(canvas), Area::new([5, 0, 17, 12]));
    assert_eq!(glass(2.5, 0.0).window(canvas), Area::new([2, 0, 20, 15]));
    // 8 by 8 pixels; 18 by 15 at k = 2
    assert_eq!(glass(0.0, 0.5).need(canvas), 3 * 8 * 8);
    assert_eq!(glass(2.5, 0.0).need(canvas), 3 * 9 * 8);
}

/// The last layer's effect, and how many pixels are stained then. Source 0 is hidden.
fn stained(blocks: &[[u8; BLOCK]]) -> (Effect, usize) {
    let rundown = blocks.concat();
    let show = show(&rundown);
    assert_eq!(show.answer(), Ok(blocks.len()));
    let mut stain = Stain::empty(&show, 0);
    let mut last = Effect::Nothing;
    for layer in show.in_order() {
        last = stain.paint(&show, &layer);
    }
    (last, stain.holds.iter().filter(|held| **held).count())
}

#[test]
fn the_stain() {
    let shown = exact(1, 0, 0, 0);
    let dot = exact(2, 1, 0, 0);
    assert_eq!(stained(&[shown]), (Effect::Adds, 12));
    assert_eq!(stained(&[shown, dot]), (Effect::Clears { any: true }, 11));
    // by its priority the copy comes first
    assert_eq!(stained(&[shown, exact(0, 1, 0, 0)]), (Effect::Adds, 12));
    let dimmed = block(5, 2, &[(4, 1), (76, 255), (80, 1)]);
    assert_eq!(stained(&[shown, dimmed]), (Effect::Nothing, 12));
    let alone = Effect::Spreads {
        by_window_alone: true,
    };
    assert_eq!(stained(&[shown, glass(2, 6.0)]), (alone, 16));
    assert_eq!(stained(&[shown, glass(2, 7.0)]), (Effect::Apart, 12));
}

#[test]
fn a_source_s_words_are_found_by_the_table() {
    assert_eq!(show(&[]).words_of(0), 0..12);
    assert_eq!(show(&[]).words_of(1), 12..13);
    assert!(show(&[]).words_of(2).is_empty());
    let refused = Show {
        table: &[u32::MAX, u32::MAX, 1, 1],
        ..show(&[])
    };
    assert_eq!(refused.words_of(0), 0..13);
    assert!(refused.words_of(1).is_empty());
}

#[test]
fn layers_have_their_kinds_and_causes_their_numbers() {
    for kind in 1..=8 {
        let block = block(kind, 3, &[]);
        let layer = Layer::of(block.first_chunk().expect("a block has a body"));
        assert_eq!(layer.number(), kind as usize);
        assert_eq!(matches!(layer.kind, Kind::Glass(_)), kind == 4);
    }
    assert_eq!(Cause::Canvas as u32, 1);
    assert_eq!(Cause::Scratch as u32, 11);
}
