//! Every sort of PNG file becomes 8-bit sRGB over black. What is expected is worked out here, by hand or by a formula.
mod case;
mod png;

use case::{Case, Space, LINEAR, OLD_SCREEN, USUAL};
use picture::Picture;
use png::Kind;

/// The sorts of files that there are, with the bits that a sample may have.
const SORTS: [(Kind, &[u8]); 5] = [
    (Kind::Grey, &[1, 2, 4, 8, 16]),
    (Kind::Rgb, &[8, 16]),
    (Kind::Palette, &[1, 2, 4, 8]),
    (Kind::GreyAlpha, &[8, 16]),
    (Kind::Rgba, &[8, 16]),
];

/// Sizes of which some have pixels in every pass of Adam7, and some have passes without a pixel.
const SIZES: [(usize, usize); 4] = [(19, 13), (3, 2), (1, 5), (1, 1)];

/// Checks a file of every sort, depth and size, with and without clear pixels, interlaced and not.
fn check_all(space: Space) {
    let sorts = SORTS.iter();
    let sorts = sorts.flat_map(|(kind, depths)| depths.iter().map(|depth| (*kind, *depth)));
    for ((kind, depth), size) in sorts.flat_map(|sort| SIZES.map(|size| (sort, size))) {
        let new = || Case::new(kind, depth, size, space);
        for mut case in [Some(new()), new().with_clear()].into_iter().flatten() {
            case.check();
            case.file.interlaced = true;
            case.check();
        }
    }
}

#[test]
fn files_that_say_nothing_of_their_samples() {
    check_all(Space::Unsaid);
}

#[test]
fn files_that_say_srgb() {
    check_all(Space::Srgb);
}

#[test]
fn files_of_the_usual_gamma() {
    check_all(USUAL);
}

#[test]
fn files_of_linear_samples() {
    check_all(LINEAR);
}

#[test]
fn files_of_another_gamma() {
    check_all(OLD_SCREEN);
}

/// The pixels of a grey file of those samples, as bytes.
fn greys(depth: u8, space: Space, samples: &[u16]) -> Vec<u8> {
    let mut case = Case::new(Kind::Grey, depth, (samples.len(), 1), space);
    case.file.samples = samples.to_vec();
    let picture = Picture::decode(&case.file.bytes()).unwrap();
    let grey = |pixel: &u32| {
        let [0, red, green, blue] = pixel.to_be_bytes() else {
            panic!("{pixel:X} has a top byte");
        };
        assert!(red == green && green == blue, "{pixel:X} is not grey");
        red
    };
    picture.pixels().iter().map(grey).collect()
}

#[test]
fn greys_by_hand() {
    assert_eq!(greys(1, Space::Unsaid, &[0, 1]), [0, 255]);
    assert_eq!(greys(2, Space::Unsaid, &[0, 1, 2, 3]), [0, 85, 170, 255]);
    assert_eq!(greys(4, Space::Unsaid, &[0, 1, 7, 15]), [0, 17, 119, 255]);
    assert_eq!(greys(8, Space::Unsaid, &[0, 1, 64, 255]), [0, 1, 64, 255]);
    // A linear 64 of 255 is 0.251, and 0.251 ^ (1 / 2.2) is 0.5335.
    assert_eq!(greys(8, LINEAR, &[0, 64, 255]), [0, 136, 255]);
    // libpng leaves the samples of a gamma within a twentieth of the usual one as they are.
    assert_eq!(greys(8, Space::Gamma(47000), &[0, 128, 255]), [0, 128, 255]);
}

#[test]
fn sixteen_bits_are_srgb_unless_the_file_says_otherwise() {
    // 8000 / 257 is 31.1.
    for space in [Space::Unsaid, Space::Srgb, USUAL] {
        assert_eq!(greys(16, space, &[0, 8000, 65535]), [0, 31, 255]);
    }
    // 8000 of 65535 is 0.1221, and 0.1221 ^ (1 / 2.2) is 0.3844.
    assert_eq!(greys(16, LINEAR, &[0, 8000, 65535]), [0, 98, 255]);
}

#[test]
fn all_samples_of_sixteen_bits() {
    let all: Vec<u16> = (0..=65535).collect();
    for space in [Space::Unsaid, Space::Srgb, USUAL] {
        let nearest = |sample: &u16| ((u32::from(*sample) + 128) / 257) as u8;
        let want: Vec<u8> = all.iter().map(nearest).collect();
        assert_eq!(greys(16, space, &all), want);
    }
}

/// libpng's table for a gamma is coarse where a curve is steep.
#[test]
fn dark_linear_samples_of_sixteen_bits() {
    let all: Vec<u16> = (0..=65535).collect();
    for (sample, got) in all.iter().zip(greys(16, LINEAR, &all)) {
        let want = 255.0 * (f64::from(*sample) / 65535.0).powf(1.0 / 2.2);
        let slack = if *sample < 416 { 8 } else { 1 };
        let off = got.abs_diff(want.round() as u8);
        assert!(off <= slack, "{sample} is {got}, not {want}");
    }
}

#[test]
fn alpha_by_hand() {
    let mut case = Case::new(Kind::Rgba, 16, (1, 1), Space::Unsaid);
    // Alpha 32768 is 128 of 255; 31 x 128 / 255 is 15.6, 255 becomes 128.
    case.file.samples = vec![8000, 65535, 0, 32768];
    for interlaced in [false, true] {
        case.file.interlaced = interlaced;
        let picture = Picture::decode(&case.file.bytes()).unwrap();
        assert_eq!(picture.pixels(), [0x0010_8000]);
    }
}

/// Neither a background that the file proposes nor its primaries change a pixel.
#[test]
fn chunks_that_are_not_heeded() {
    let mut case = Case::new(Kind::Rgba, 8, (4, 4), Space::Unsaid);
    // White and the primaries of a wide space, x and y of each in 100,000ths.
    let primaries: [u32; 8] = [31270, 32900, 70800, 29200, 17000, 79700, 13100, 4600];
    let primaries = primaries.iter().flat_map(|n| n.to_be_bytes()).collect();
    case.file.chunks.push((*b"cHRM", primaries));
    case.file
        .chunks
        .push((*b"bKGD", vec![0, 255, 0, 255, 0, 255]));
    case.check();
}
