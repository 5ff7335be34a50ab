//! 02's sentences on the dearest panel, one by one, put to the reading.
use reading::{dearest, judge, Answer, Cause, Glass, Kind, Layer, Rect, Show, BLOCK};

const LENT: [u8; BLOCK] = [0xA7; BLOCK];

/// The blurs at which k changes, with those beside them, and the ends of the range.
const BLURS: [f32; 9] = [
    0.0,
    -0.0,
    f32::from_bits(1),
    2.5f32.next_down(),
    2.5,
    9.0f32.next_down(),
    9.0,
    9.0f32.next_up(),
    64.0,
];

/// Sides on which k = 2 and k = 4 leave every remainder.
const SIDES: [u32; 7] = [1, 2, 3, 4, 5, 4095, 4096];

fn asked(width: u32, height: u32, blur: f32) -> (Answer, [u8; BLOCK]) {
    let mut block = LENT;
    let answer = dearest(width, height, blur, &mut block);
    (answer, block)
}

fn need(width: u32, height: u32, blur: f32) -> usize {
    asked(width, height, blur).0.expect("it is told")
}

/// The cause's number with what stands beside it; the bytes have to be as they were.
fn refused(width: u32, height: u32, blur: f32) -> (u32, usize) {
    let (answer, left) = asked(width, height, blur);
    assert_eq!(left, LENT);
    let (cause, beside) = answer.expect_err("it is refused");
    (cause as u32, beside)
}

fn on(rundown: &[u8], width: u32, height: u32) -> Show<'_> {
    Show {
        rundown,
        width,
        height,
        canvas: width as usize * height as usize,
        table: &[],
        pool: 0,
        scratch: [0, 0],
    }
}

/// A flat panel.
fn panel(rect: Rect, blur: f32) -> Layer {
    let glass = Glass {
        rect,
        radius: 0.0,
        blur,
        tint: [0; 4],
        saturation: 1.0,
        brightness: 0.0,
        bezel: 0.0,
        spec: 0.0,
        table: [0.0; 33],
    };
    Layer {
        priority: 0,
        clip: [0, 0, 4096, 4096],
        kind: Kind::Glass(Box::new(glass)),
    }
}

/// Every size and every blur of the lists.
fn each(test: impl Fn(u32, u32, f32)) {
    for width in SIDES {
        for height in SIDES {
            BLURS.iter().for_each(|blur| test(width, height, *blur));
        }
    }
}

#[test]
fn the_need_is_three_for_each_cell_of_the_canvas() {
    assert_eq!(need(1, 1, 0.0), 3);
    assert_eq!(need(5, 5, 2.5f32.next_down()), 75);
    assert_eq!(need(5, 5, 2.5), 27);
    assert_eq!(need(5, 5, 9.0f32.next_down()), 27);
    assert_eq!(need(5, 5, 9.0), 12);
    assert_eq!(need(1920, 1080, 9.0), 388_800);
    assert_eq!(need(4096, 4096, 0.0), 50_331_648);
    assert_eq!(need(4096, 4095, 64.0), 3 * 1024 * 1024);
    assert_eq!(need(1, 4095, 4.0), 3 * 2048);
}

#[test]
fn a_bad_size_gets_1_and_then_a_bad_blur_6_each_with_0() {
    for side in [0, 4097, 1 << 16, u32::MAX] {
        for (width, height) in [(side, 1), (1, side), (side, side)] {
            assert_eq!(refused(width, height, 1.0), (1, 0));
            assert_eq!(refused(width, height, f32::NAN), (1, 0));
            assert_eq!(refused(width, height, -1.0), (1, 0));
        }
    }
    let least = f32::from_bits(1);
    let numbers = [64.0f32.next_up(), -least, -1.0, f32::MAX, f32::MIN];
    let none = [f32::INFINITY, f32::NEG_INFINITY, f32::NAN, -f32::NAN];
    let signalling = [0x7F80_0001, 0xFFBF_FFFF].map(f32::from_bits);
    for blur in numbers.into_iter().chain(none).chain(signalling) {
        assert_eq!(refused(4096, 1, blur), (6, 0), "{blur}");
    }
}

#[test]
fn the_block_is_finished_and_has_the_blur_as_it_was_given() {
    each(|width, height, blur| {
        let (_, block) = asked(width, height, blur);
        assert_eq!(judge(&block), Ok(()));
        let layer = Layer::of(block.first_chunk().expect("a block has a body"));
        assert_eq!(layer.priority, 0);
        match layer.kind {
            Kind::Glass(glass) => assert_eq!(glass.blur.to_bits(), blur.to_bits()),
            other => panic!("{other:?}"),
        }
    });
}

#[test]
fn the_block_reaches_the_need() {
    each(|width, height, blur| {
        let (answer, block) = asked(width, height, blur);
        let n = answer.expect("it is told");
        let alone = on(&block, width, height);
        let with = |scratch| Show { scratch, ..alone }.answer();
        assert_eq!(with([n, n]), Ok(1), "{width} by {height}, {blur}");
        assert_eq!(with([n - 1, n]), Err((Cause::Scratch, 0)));
        assert_eq!(with([n, n - 1]), Err((Cause::Scratch, 0)));
        let forecast = alone.forecast().expect("it is counted");
        assert_eq!((forecast.scratch, forecast.cells), (n, n as u64 / 3));
    });
}

#[test]
fn no_other_panel_needs_more() {
    let places = [-30.0, -3.5, 0.0, 0.5, 4.0, 40.0];
    let sides = [0.0, 1.5, 2.0, 5.5, 12.0, 4096.0];
    let spans = places.map(|at| sides.map(|side| [at, side]));
    let spans = spans.as_flattened();
    for (width, height) in (1..=12).flat_map(|w| (1..=12).map(move |h| (w, h))) {
        for blur in BLURS {
            let bare = on(&[], width, height);
            let across = spans.iter().flat_map(|x| spans.iter().map(move |y| (x, y)));
            let needs = across.map(|([x, w], [y, h])| bare.need(&panel([*x, *y, *w, *h], blur)));
            let most = needs.max().expect("there are some");
            assert_eq!(most, need(width, height, blur), "{width} by {height}");
        }
    }
}

#[test]
fn some_panels_miss_it() {
    let needs = |rect, width, height| on(&[], width, height).need(&panel(rect, 0.0));
    // the canvas's own sides: it has no box where the canvas is one pixel wide
    let own =
        |width: u32, height: u32| needs([0.0, 0.0, width as f32, height as f32], width, height);
    assert_eq!(own(2, 2), need(2, 2, 0.0));
    assert_eq!(own(1, 7), 0);
    assert_eq!(own(7, 1), 0);
    // two by two: its window ends at 5
    let least = |width, height| needs([0.0, 0.0, 2.0, 2.0], width, height);
    assert_eq!(least(5, 5), need(5, 5, 0.0));
    assert_eq!(least(6, 5), 75);
}
