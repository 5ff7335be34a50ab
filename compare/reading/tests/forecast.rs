//! 02's sentences on the forecast, one by one, put to the reading.
mod given;

use given::{block, exact, float, glass, show, H, W};
use reading::{Area, Forecast, Show, BLOCK, BODY, MOST};

fn forecast(rundown: &[u8]) -> Forecast {
    show(rundown).forecast().expect("it is counted")
}

fn refused(show: Show) -> (u32, usize) {
    let (cause, beside) = show.forecast().expect_err("it is refused");
    (cause as u32, beside)
}

/// The words of a glass panel of this blur; `set` are others of its block.
fn glazed([x, y, w, h]: [f32; 4], blur: f32, set: &[(usize, u32)]) -> Vec<(usize, u32)> {
    let place = [float(52, blur), float(32, x), float(36, y)];
    let size = [float(40, w), float(44, h)];
    [&place[..], &size, set].concat()
}

fn panel(rect: [f32; 4], blur: f32, set: &[(usize, u32)]) -> [u8; BLOCK] {
    block(4, 1, &glazed(rect, blur, set))
}

/// The box of a layer that is alone.
fn area(block: [u8; BLOCK]) -> [i32; 4] {
    let Area { x0, y0, x1, y1 } = forecast(&block).boxes[0];
    [x0, y0, x1, y1]
}

/// The scratch and the cells of a layer that is alone.
fn work(block: [u8; BLOCK]) -> (usize, u64) {
    let forecast = forecast(&block);
    (forecast.scratch, forecast.cells)
}

#[test]
fn no_layer_needs_nothing() {
    let none = Forecast {
        layers: 0,
        scratch: 0,
        cells: 0,
        boxes: [Area::new([0, 0, 0, 0]); MOST],
    };
    assert_eq!(forecast(&[]), none);
}

#[test]
fn a_panel_beside_a_call() {
    let clip = [(244, 8), (248, 2)];
    let beside = panel([4.0, 0.0, 3.0, 2.0], 0.0, &clip);
    let call = block(5, 9, &[(4, 0), (76, 255), clip[0], clip[1]]);
    let rundown = [beside, call].concat();
    let small = Show {
        width: 8,
        height: 2,
        table: &[2, 2, 3, 2],
        ..show(&rundown)
    };
    let forecast = small.forecast().expect("it is counted");
    assert_eq!((forecast.layers, forecast.scratch), (2, 42));
    assert_eq!(forecast.cells, 14);
    assert_eq!(forecast.boxes[0], Area::new([4, 0, 7, 2]));
    assert_eq!(forecast.boxes[1], Area::new([0, 0, 2, 2]));
}

#[test]
fn the_greatest_length_of_any_layer() {
    // windows of 5 by 5 and of 8 by 5 pixels, in either order
    let (few, many) = (glass(2, 0.0), glass(1, 5.0));
    for both in [[few, many], [many, few]] {
        let forecast = forecast(both.as_flattened());
        assert_eq!((forecast.scratch, forecast.cells), (120, 65));
    }
}

#[test]
fn boxes_stand_in_buffer_order() {
    // the second layer has no box, and the last is painted first
    let off = block(5, 4, &[(8, W), (76, 255)]);
    let rundown = [exact(9, 0, 3, 2), off, exact(1, 1, 7, 5)].concat();
    let boxes = forecast(&rundown).boxes;
    assert_eq!(boxes[0], Area::new([3, 2, 7, 5]));
    assert_eq!(boxes[1], Area::new([0, 0, 0, 0]));
    assert_eq!(boxes[2], Area::new([7, 5, 8, 6]));
    assert!(boxes[3..].iter().all(|b| *b == Area::new([0, 0, 0, 0])));
}

#[test]
fn only_glass_has_a_least_size() {
    let thin = [float(32, 2.5), float(36, 3.0), float(44, 1.5)];
    for kind in [1, 2, 3, 6] {
        let set = if kind == 6 { vec![(4, 1)] } else { vec![] };
        let set = [&thin[..], &set].concat();
        assert_eq!(area(block(kind, 1, &set)), [2, 3, 3, 5], "kind {kind}");
    }
    assert_eq!(area(block(4, 1, &thin)), [0, 0, 0, 0]);
    // a genie's box is its clip, wherever its rectangle lies
    let clip = [(236, 2), (240, 1), (244, 12), (248, 4)];
    let genie = [&thin[..], &clip].concat();
    assert_eq!(area(block(7, 1, &genie)), [2, 1, 12, 4]);
    // a frame ignores its clip, and is cut to the canvas
    let frame = [(8, 3), (12, 4), (16, 5), (20, 4000), (244, 0)];
    assert_eq!(area(block(8, 1, &frame)), [3, 4, 8, H as i32]);
}

#[test]
fn cells_are_those_of_the_window() {
    // 3 by 3 pixels at (8, 4), and the window cut to the canvas: 9 by 9 of them
    let rect = [8.0, 4.0, 3.0, 3.0];
    assert_eq!(work(panel(rect, 0.0, &[])), (3 * 81, 81));
    // its box is one pixel; the window stays
    let clip = [(236, 8), (240, 4), (244, 9), (248, 5)];
    assert_eq!(work(panel(rect, 0.0, &clip)), (3 * 81, 81));
    // grown by 8: 19 by 10 of them, k = 2
    assert_eq!(work(panel(rect, 2.5, &[])), (3 * 10 * 5, 50));
    // grown by 21: all of the canvas, k = 4, the last cell of each column being ragged
    assert_eq!(work(panel(rect, 9.0, &[])), (3 * 5 * 3, 15));
}

#[test]
fn a_panel_with_an_empty_box_counts_nothing() {
    let rect = [8.0, 4.0, 3.0, 3.0];
    let elsewhere = [(236, 0), (240, 0), (244, 8), (248, 4)];
    assert_eq!(work(panel(rect, 0.0, &elsewhere)), (0, 0), "the clip");
    let beyond = [W as f32, 4.0, 3.0, 3.0];
    assert_eq!(work(panel(beyond, 0.0, &[])), (0, 0), "beside the canvas");
    let thin = [8.0, 4.0, 2.0f32.next_down(), 3.0];
    assert_eq!(work(panel(thin, 0.0, &[])), (0, 0), "a side below 2");
    let least = [8.0, 4.0, 2.0, 2.0];
    assert_eq!(work(panel(least, 0.0, &[])), (3 * 64, 64));
}

#[test]
fn cells_need_more_than_32_bits() {
    let side = 4096.0;
    let clip = [(244, 4096), (248, 4096)];
    let full = glazed([0.0, 0.0, side, side], 2.0, &clip);
    let rundown: Vec<u8> = (0..MOST as u16).flat_map(|p| block(4, p, &full)).collect();
    let largest = Show {
        width: 4096,
        height: 4096,
        ..show(&rundown)
    };
    let forecast = largest.forecast().expect("it is counted");
    assert_eq!(forecast.layers, MOST);
    assert_eq!(forecast.cells, 1 << 32);
    assert_eq!(forecast.scratch, 3 << 24);
    assert_eq!(forecast.boxes, [Area::canvas(4096, 4096); MOST]);
}

#[test]
fn the_first_three_tests_in_their_order() {
    let odd = [0; 5];
    let wrong = Show {
        height: 0,
        table: &[1],
        ..show(&odd)
    };
    assert_eq!(refused(wrong), (1, 0));
    assert_eq!(refused(Show { height: H, ..wrong }), (2, 0));
    assert_eq!(refused(show(&odd)), (3, 0));
    assert_eq!(refused(show(&[0; (MOST + 1) * BLOCK])), (3, 0));
}

#[test]
fn sides_are_tested_before_their_product_is_formed() {
    for side in [0, 4097, 1 << 16, u32::MAX] {
        for (width, height) in [(side, 1), (1, side), (side, side)] {
            let wrong = Show {
                width,
                height,
                canvas: 0,
                ..show(&[])
            };
            assert_eq!(refused(wrong), (1, 0), "{width} by {height}");
            let table = &[width, height];
            assert_eq!(refused(Show { table, ..show(&[]) }), (2, 0));
        }
    }
    let long = [1; 34];
    let table = &long[..];
    assert_eq!(refused(Show { table, ..show(&[]) }), (2, 0));
    let table = &long[..32];
    assert!(Show { table, ..show(&[]) }.forecast().is_ok());
}

#[test]
fn no_length_of_pixels_is_tested_and_no_scratch() {
    let rundown = glass(1, 5.0);
    let lent = Show {
        canvas: 7,
        pool: 7,
        scratch: [0, 0],
        ..show(&rundown)
    };
    assert_eq!(lent.forecast(), show(&rundown).forecast());
    assert_eq!(forecast(&rundown).scratch, 120);
}

#[test]
fn the_blocks_tests_in_their_order() {
    let mut wrong = exact(2, 0, 0, 0);
    wrong[BODY] ^= 1;
    let absent = exact(1, 2, 0, 0);
    let beyond = block(8, 3, &[(8, W), (16, 1)]);
    let cause = |blocks: &[[u8; BLOCK]]| refused(show(blocks.as_flattened()));
    assert_eq!(cause(&[absent, wrong]), (9, 0));
    assert_eq!(cause(&[beyond, wrong]), (10, 0));
    assert_eq!(cause(&[wrong, absent]), (4, 0));
    assert_eq!(cause(&[block(9, 1, &[])]), (5, 0));
    assert_eq!(cause(&[block(1, 1, &[float(40, -1.0)])]), (6, 0));
    assert_eq!(cause(&[block(5, 1, &[(76, 256), (4, 2)])]), (7, 0));
    let twice = [exact(7, 0, 0, 0), exact(7, 1, 0, 0)];
    assert_eq!(cause(&twice), (8, 1));
    assert_eq!(cause(&[twice[0], twice[1], beyond]), (10, 2));
}

#[test]
fn it_is_tied_to_playing() {
    let rundown = [glass(3, 0.0), glass(2, 5.0), glass(1, 6.0)].concat();
    let l = forecast(&rundown).scratch;
    let lent = |scratch| Show {
        scratch,
        ..show(&rundown)
    };
    assert_eq!(lent([l, l]).answer(), Ok(3));
    for short in [[l - 1, l], [l, l - 1], [l - 1, l - 1]] {
        // the first block that needs more: the first panel's need is 75
        let (cause, at) = lent(short).answer().expect_err("it is refused");
        assert_eq!((cause as u32, at), (11, 1));
    }
    let idle = exact(1, 0, 0, 0);
    assert_eq!(forecast(&idle).scratch, 0);
    let none = Show {
        scratch: [0, 0],
        ..show(&idle)
    };
    assert_eq!(none.answer(), Ok(1));
}
