//! The two exact copies of the program `playout`, as it prints them.
use tiglostrema::{play, raw, Canvas, IRect, Rundown, Scratch, Source, Sources, StraightCopy};

const PRINTED: &str = "\
layers 2
112233 FFFFFF 000000 000000
000000 000000 000000 000000
";

fn sources() -> Sources {
    let mut sources = Sources::new();
    for (width, pixels) in [(2, &[0x112233, 0x445566][..]), (1, &[0xFFFFFF])] {
        let source = Source::new(width, 1, pixels).expect("a source");
        sources.push(source).expect("room for it");
    }
    sources
}

fn rundown() -> Rundown {
    let clip = IRect::new(0, 0, 4, 2);
    let mut rundown = Rundown::new();
    for (priority, copy) in [
        (10, StraightCopy::new(1, 1, 0)),
        (9, StraightCopy::new(0, 0, 0)),
    ] {
        rundown
            .add(priority, copy.with_clip(clip))
            .expect("in range");
    }
    rundown
}

fn print(layers: usize, pixels: &[u32]) -> String {
    let mut text = format!("layers {layers}\n");
    for row in pixels.chunks(4) {
        let words: Vec<_> = row
            .iter()
            .map(|p| format!("{:06X}", p & 0xFFFFFF))
            .collect();
        text += &format!("{}\n", words.join(" "));
    }
    text
}

#[test]
fn through_the_types() {
    let mut canvas = Canvas::new(4, 2).expect("a canvas");
    let layers = play(&rundown(), &mut canvas, &sources(), &mut Scratch::new());
    assert_eq!(print(layers.expect("accepted"), canvas.pixels()), PRINTED);
}

#[test]
fn through_lent_slices() {
    let (rundown, sources) = (rundown(), sources());
    let (mut canvas, mut a, mut b) = ([0; 8], [0; 24], [0; 24]);
    let table = sources.table().as_words();
    assert_eq!(table, [2, 1, 1, 1]);
    let layers = raw::play(
        rundown.as_bytes(),
        4,
        2,
        &mut canvas,
        table,
        sources.pool(),
        &mut a,
        &mut b,
    );
    assert_eq!(print(layers.expect("accepted"), &canvas), PRINTED);
}

#[test]
fn ten_is_above_nine_in_any_order_of_the_blocks() {
    let bytes = rundown().into_bytes();
    let (first, second) = bytes.split_at(512);
    let turned = Rundown::from_bytes(&[second, first].concat()).expect("the same layers");
    let mut canvas = Canvas::new(4, 2).expect("a canvas");
    let layers = play(&turned, &mut canvas, &sources(), &mut Scratch::new());
    assert_eq!(print(layers.expect("accepted"), canvas.pixels()), PRINTED);
}
