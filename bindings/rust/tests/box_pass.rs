//! The two passes of the box blur.
use tiglostrema::{box_h, box_v};

/// Three grey pixels.
const STEP: [u8; 9] = [0, 0, 0, 0, 0, 0, 255, 255, 255];

#[test]
fn one_goes_along_rows_the_other_along_columns() {
    let blurred = [0, 0, 0, 85, 85, 85, 170, 170, 170];
    let pass = |pass: fn(&[u8], &mut [u8], usize, usize, usize) -> _, width, height| {
        let mut dst = [1; 9];
        let done: Result<(), _> = pass(&STEP, &mut dst, width, height, 1);
        done.map(|()| dst)
    };
    assert_eq!(pass(box_h, 3, 1), Ok(blurred));
    assert_eq!(pass(box_v, 1, 3), Ok(blurred));
    assert_eq!(pass(box_h, 1, 3), Ok(STEP));
    assert_eq!(pass(box_v, 3, 1), Ok(STEP));
}

#[test]
fn each_channel_is_blurred_by_itself() {
    let mut dst = [0; 6];
    box_h(&[255, 0, 9, 0, 0, 9], &mut dst, 2, 1, 1).expect("it fits");
    assert_eq!(dst, [170, 0, 9, 85, 0, 9]);
}

#[test]
fn a_wide_window_loses_a_little() {
    for (value, kept) in [(149, 149), (150, 149)] {
        let mut dst = [0; 3];
        box_v(&[value; 3], &mut dst, 1, 1, 150).expect("it fits");
        assert_eq!(dst, [kept; 3]);
    }
}
