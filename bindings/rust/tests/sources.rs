//! Sources that are replaced, resized and removed: each keeps its number, and the others theirs.
use tiglostrema::{
    play, stain, Canvas, Cause, Rect, Refusal, Rundown, ScaledCopy, Scratch, Source, SourceId,
    Sources, StraightCopy, MAX_SOURCES,
};

const PIXELS: [&[u32]; 3] = [&[10, 11], &[20, 21, 22], &[30]];
const SIZES: [(u32, u32); 3] = [(2, 1), (1, 3), (1, 1)];

fn source(number: usize) -> Source<'static> {
    let (width, height) = SIZES[number];
    Source::new(width, height, PIXELS[number]).expect("a source")
}

fn three() -> Sources {
    let mut sources = Sources::new();
    for number in 0..3 {
        sources.push(source(number)).expect("room");
    }
    sources
}

/// The sources are these, by their numbers, and pool and table agree.
fn are(sources: &Sources, expected: [Option<Source<'_>>; 3]) {
    let sizes = expected.map(|source| source.map(|source| (source.width(), source.height())));
    assert_eq!(sources.table().sizes().collect::<Vec<_>>(), sizes);
    for (number, source) in (0..).zip(expected) {
        assert_eq!(sources.get(number), source);
    }
    let areas = sources
        .table()
        .as_words()
        .chunks(2)
        .map(|size| size[0] * size[1]);
    assert_eq!(areas.sum::<u32>() as usize, sources.pool().len());
    assert_eq!(sources.len(), 3);
}

fn words<T: std::fmt::Debug>(answer: Result<T, Refusal>) -> String {
    answer.expect_err("refused").to_string()
}

#[test]
fn a_replaced_source_leaves_the_others() {
    let larger = Source::new(2, 2, &[1, 2, 3, 4]).expect("a source");
    let smaller = Source::new(1, 1, &[5]).expect("a source");
    for number in 0..3 {
        let mut sources = three();
        for other in [larger, smaller, source(number)] {
            sources.replace(number as u32, other).expect("there");
            let mut expected = [0, 1, 2].map(|n| Some(source(n)));
            expected[number] = Some(other);
            are(&sources, expected);
        }
        assert_eq!(sources, three());
    }
}

#[test]
fn a_resized_source_is_black() {
    for number in 0..3 {
        let mut sources = three();
        sources.resize(number as u32, 3, 2).expect("there");
        let mut expected = [0, 1, 2].map(|n| Some(source(n)));
        expected[number] = Some(Source::new(3, 2, &[0; 6]).expect("a source"));
        are(&sources, expected);
        sources.pixels_mut(number as u32).expect("there").fill(7);
        expected[number] = Some(Source::new(3, 2, &[7; 6]).expect("a source"));
        are(&sources, expected);
    }
}

#[test]
fn a_removed_source_leaves_the_others() {
    for number in 0..3 {
        let mut sources = three();
        let removed = SourceId::new(number as u32);
        sources.remove(removed).expect("there");
        let mut expected = [0, 1, 2].map(|n| Some(source(n)));
        expected[number] = None;
        are(&sources, expected);
        assert_eq!(sources.pixels_mut(removed), None);
        let gone = format!("source {number} was removed (cause 9)");
        assert_eq!(words(sources.remove(removed)), gone);
        assert_eq!(words(sources.resize(removed, 1, 1)), gone);
        are(&sources, expected);
        sources
            .replace(removed, source(number))
            .expect("its place is free");
        assert_eq!(sources, three());
    }
}

#[test]
fn a_number_is_not_given_twice() {
    let mut sources = three();
    sources.remove(2).expect("there");
    assert_eq!(sources.push(source(0)), Ok(SourceId::new(3)));
    while sources.len() < MAX_SOURCES {
        sources.push(source(1)).expect("room");
    }
    let before = sources.clone();
    assert_eq!(
        words(sources.push(source(0))),
        "all 16 source numbers are taken, 1 by removed sources; \
         `replace` fills such a place (cause 2)"
    );
    assert_eq!(sources, before);
    sources.replace(2, source(2)).expect("its place is free");
    assert_eq!(
        words(sources.push(source(0))),
        "all 16 source numbers are taken (cause 2)"
    );
}

#[test]
fn a_refused_change_changes_nothing() {
    let mut sources = three();
    let absent = "there is no source 3, the last is 2 (cause 9)";
    assert_eq!(words(sources.remove(3)), absent);
    assert_eq!(words(sources.resize(3, 1, 1)), absent);
    assert_eq!(words(sources.replace(3, source(0))), absent);
    for (width, height) in [(0, 1), (1, 0), (4097, 1), (1, 4097), (u32::MAX, u32::MAX)] {
        let sides =
            format!("the source is {width} × {height} pixels, and a side has 1 to 4096 (cause 2)");
        assert_eq!(words(sources.resize(1, width, height)), sides);
    }
    assert_eq!(sources, three());
    assert_eq!(
        words(Sources::new().remove(0)),
        "there is no source 0, nor any other (cause 9)"
    );
}

#[test]
fn a_layer_of_a_removed_source_is_refused() {
    let mut rundown = Rundown::new();
    rundown
        .add(1, StraightCopy::new(2, 0, 0))
        .expect("in range");
    rundown
        .add(2, ScaledCopy::new(1, Rect::new(0.0, 0.0, 2.0, 2.0)))
        .expect("in range");
    let mut sources = three();
    sources.remove(0).expect("there");
    let mut canvas = Canvas::new(2, 2).expect("a canvas");
    assert_eq!(
        play(&rundown, &mut canvas, &sources, &mut Scratch::new()),
        Ok(2)
    );
    sources.remove(1).expect("there");
    let before = canvas.clone();
    let refusal = play(&rundown, &mut canvas, &sources, &mut Scratch::new()).expect_err("refused");
    assert_eq!(
        (refusal.cause(), refusal.block()),
        (Cause::NoSuchSource, Some(1))
    );
    assert_eq!(
        refusal.to_string(),
        "block 1, priority 2: source 1 was removed (cause 9)"
    );
    assert_eq!(canvas, before);
    assert_eq!(stain(&rundown, 2, 2, sources.table(), 2), Err(refusal));
    assert_eq!(
        words(stain(&rundown, 2, 2, sources.table(), 1)),
        "source 1 was removed (cause 9)"
    );
    rundown.remove(2).expect("there");
    assert_eq!(
        play(&rundown, &mut canvas, &sources, &mut Scratch::new()),
        Ok(1)
    );
}

#[test]
fn a_table_of_sizes_changes_as_the_sources_do() {
    let mut table = three().table().clone();
    table.resize(1, 5, 6).expect("there");
    table.remove(0).expect("there");
    assert_eq!(
        table.sizes().collect::<Vec<_>>(),
        [None, Some((5, 6)), Some((1, 1))]
    );
    assert_eq!(table.as_words(), [1, 1, 5, 6, 1, 1]);
    let before = table.clone();
    let gone = "source 0 was removed (cause 9)";
    assert_eq!(words(table.remove(0)), gone);
    assert_eq!(words(table.resize(0, 2, 2)), gone);
    let sides = "the source is 2 × 0 pixels, and a side has 1 to 4096 (cause 2)";
    assert_eq!(words(table.replace(0, 2, 0)), sides);
    assert_eq!(words(table.push(2, 0)), sides);
    assert_eq!(table, before);
    table.replace(0, 7, 8).expect("its place is free");
    assert_eq!((table.size(0), table.size(3)), (Some((7, 8)), None));
}

#[test]
fn a_number_is_a_type_of_its_own() {
    let (two, ten) = (SourceId::new(2), SourceId::from(10));
    assert!(two < ten);
    assert_eq!((u32::from(ten), ten.number(), ten.index()), (10, 10, 10));
    assert_eq!(format!("{two} {ten:>4}"), "2   10");
    assert_eq!(StraightCopy::new(two, 0, 0), StraightCopy::new(2, 0, 0));
    assert_eq!(StraightCopy::new(2, 0, 0).source, two);
}
