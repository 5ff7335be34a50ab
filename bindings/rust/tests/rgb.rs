//! Canvases from bytes and to bytes, and sources from bytes.
use tiglostrema::{Canvas, Cause, Refusal, Source, Sources};

/// A canvas of one row, no two channels alike, with top bytes that have to be left out.
fn row(width: u32) -> Canvas {
    let pixels = (0..width).map(|i| 0xAB01_0203 + 0x0003_0303 * i);
    Canvas::from_pixels(width, 1, pixels.collect()).expect("a canvas")
}

/// The bytes of the row, one by one, each pixel followed by `more`.
fn bytes(width: u32, more: &[u8]) -> Vec<u8> {
    let pixels = (0..width as u8).map(|i| [1 + 3 * i, 2 + 3 * i, 3 + 3 * i]);
    pixels.flat_map(|rgb| [&rgb, more].concat()).collect()
}

#[test]
fn every_pixel_is_written_whatever_the_width() {
    for width in 1..=17 {
        let (rgb, rgba) = (bytes(width, &[]), bytes(width, &[255]));
        assert_eq!(row(width).to_rgb(), rgb);
        assert_eq!(row(width).to_rgba(), rgba);
        let mut kept = vec![9; rgb.len()];
        assert_eq!((row(width).rgb_into(&mut kept), &kept), (Ok(()), &rgb));
        let mut kept = vec![9; rgba.len()];
        assert_eq!((row(width).rgba_into(&mut kept), &kept), (Ok(()), &rgba));
    }
}

#[test]
fn bytes_make_the_canvas_again_without_its_top_bytes() {
    let clean = row(9)
        .pixels()
        .iter()
        .map(|pixel| pixel & 0xFF_FFFF)
        .collect();
    let clean = Canvas::from_pixels(3, 3, clean).expect("a canvas");
    assert_eq!(Canvas::from_rgb(3, 3, &row(9).to_rgb()), Ok(clean.clone()));
    assert_eq!(Canvas::from_rgba(3, 3, &row(9).to_rgba()), Ok(clean));
}

#[test]
fn alpha_is_composed_over_black_to_the_nearest() {
    for (c, a) in (0..=255u8).flat_map(|c| (0..=255u8).map(move |a| (c, a))) {
        let canvas = Canvas::from_rgba(1, 1, &[c, 255 - c, 0, a]).expect("a canvas");
        let pixel = canvas.pixels()[0];
        for (channel, shift) in [(c, 16), (255 - c, 8)] {
            let exact = i32::from(channel) * i32::from(a);
            let got = (pixel >> shift & 255) as i32 * 255;
            assert!(
                (2 * (got - exact)).abs() <= 255,
                "{channel} at {a}: {pixel:06X}"
            );
        }
        assert_eq!(pixel & 0xFF00_00FF, 0);
    }
}

/// The words of a refusal with cause 1.
fn words<T: std::fmt::Debug>(answer: Result<T, Refusal>) -> String {
    let refusal = answer.expect_err("refused");
    assert_eq!(
        (refusal.cause(), refusal.block()),
        (Cause::CanvasSize, None)
    );
    refusal.to_string()
}

#[test]
fn a_wrong_length_says_which() {
    let three = "bytes given for the canvas: 17, not 3 × 2 × 3 = 18 (cause 1)";
    let four = "bytes given for the canvas: 25, not 3 × 2 × 4 = 24 (cause 1)";
    assert_eq!(words(Canvas::from_rgb(3, 2, &[0; 17])), three);
    assert_eq!(words(Canvas::from_rgba(3, 2, &[0; 25])), four);
    let canvas = Canvas::new(3, 2).expect("a canvas");
    let (mut short, mut long) = ([9; 17], [9; 25]);
    assert_eq!(words(canvas.rgb_into(&mut short)), three);
    assert_eq!(words(canvas.rgba_into(&mut long)), four);
    assert_eq!((short, long), ([9; 17], [9; 25]));
    let sides = "the canvas is 0 × 4097 pixels, and a side has 1 to 4096 (cause 1)";
    assert_eq!(words(Canvas::from_rgb(0, 4097, &[])), sides);
    assert_eq!(words(Canvas::from_rgba(0, 4097, &[])), sides);
}

/// Three sources of 2 × 1, 3 × 2 and 1 × 1 pixels, the last of them removed.
fn sources() -> Sources {
    let mut sources = Sources::new();
    for (width, height, pixels) in [(2, 1, &[1; 2][..]), (3, 2, &[2; 6]), (1, 1, &[3])] {
        let source = Source::new(width, height, pixels).expect("a source");
        sources.push(source).expect("room");
    }
    sources.remove(2).expect("there");
    sources
}

#[test]
fn a_source_is_written_as_a_canvas_is_read() {
    let (rgb, rgba) = (bytes(6, &[]), bytes(6, &[128]));
    let mut sources = sources();
    assert_eq!(sources.write_rgb(1, &rgb), Ok(()));
    let canvas = Canvas::from_rgb(3, 2, &rgb).expect("a canvas");
    assert_eq!(sources.get(1), Some(Source::from(&canvas)));
    assert_eq!(sources.write_rgba(1, &rgba), Ok(()));
    let canvas = Canvas::from_rgba(3, 2, &rgba).expect("a canvas");
    assert_eq!(sources.get(1), Some(Source::from(&canvas)));
    assert_eq!(
        sources.get(0),
        Some(Source::new(2, 1, &[1; 2]).expect("a source"))
    );
}

#[test]
fn a_refused_write_changes_no_source() {
    let mut written = sources();
    let words = |answer: Result<(), Refusal>| answer.expect_err("refused").to_string();
    let three = "bytes given for the source: 17, not 3 × 2 × 3 = 18 (cause 2)";
    assert_eq!(words(written.write_rgb(1, &[9; 17])), three);
    let four = "bytes given for the source: 25, not 3 × 2 × 4 = 24 (cause 2)";
    assert_eq!(words(written.write_rgba(1, &[9; 25])), four);
    let removed = "source 2 was removed (cause 9)";
    assert_eq!(words(written.write_rgb(2, &[9; 3])), removed);
    let absent = "there is no source 3, the last is 2 (cause 9)";
    assert_eq!(words(written.write_rgba(3, &[9; 4])), absent);
    assert_eq!(written, sources());
}
