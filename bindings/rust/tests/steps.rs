//! Playing in steps: which layer each one paints and from which pictures, what is refused, and that outside
//! the stain of what is painted two playings agree.
mod common;

use common::{block, copy, Draw, Lent};
use tiglostrema::raw::BLOCK_LEN;
use tiglostrema::{
    play, stain, Canvas, Cause, Fill, Frame, Glass, Layer, Playing, Rect, Rundown, Scratch,
    SecurityTag, Source, SourceId, Sources, StraightCopy,
};

/// Two exact copies, the upper one added first, of two sources side by side.
fn two_copies() -> (Rundown, Sources, [SourceId; 2]) {
    let (mut sources, mut rundown) = (Sources::new(), Rundown::new());
    let studio = Source::new(2, 1, &[0x112233, 0x445566]).expect("a source");
    let interpreter = Source::new(1, 1, &[0xFFFFFF]).expect("a source");
    let ids = [studio, interpreter].map(|source| sources.push(source).expect("room"));
    let [studio, interpreter] = ids;
    for (priority, copy) in [
        (10, StraightCopy::new(interpreter, 1, 0)),
        (9, StraightCopy::new(studio, 0, 0)),
    ] {
        rundown.add(priority, copy).expect("in range");
    }
    (rundown, sources, ids)
}

fn black(width: u32, height: u32) -> Canvas {
    Canvas::new(width, height).expect("a canvas")
}

/// The priorities that are painted until none is left; one more than there should be ends it, too.
fn painted(playing: &mut Playing<'_>) -> Vec<u16> {
    let most = playing.count() + 1;
    std::iter::from_fn(|| playing.step()).take(most).collect()
}

#[test]
fn two_copies_with_new_pictures_between_them() {
    let (rundown, mut sources, ids) = two_copies();
    let (mut canvas, mut scratch) = (black(4, 2), Scratch::new());
    let mut playing =
        Playing::begin(&rundown, &mut canvas, &mut sources, &mut scratch).expect("accepted");
    assert_eq!((playing.count(), playing.last()), (2, None));
    assert_eq!(playing.canvas().pixels(), [0; 8], "nothing is painted yet");
    assert_eq!(playing.step(), Some(9));
    assert_eq!(
        playing.canvas().pixels()[..4],
        [0x112233, 0x445566, 0, 0],
        "one layer is"
    );
    for (id, pixel) in ids.into_iter().zip([0xBAD, 0xABCDEF]) {
        playing.pixels_mut(id).expect("there").fill(pixel);
    }
    assert_eq!(playing.step(), Some(10));
    assert_eq!(playing.last(), Some(10));
    // It is at its end, and stays there.
    assert_eq!((playing.step(), playing.step()), (None, None));
    assert_eq!(playing.last(), Some(10));
    assert_eq!(canvas.pixels()[..4], [0x112233, 0xABCDEF, 0, 0]);
    assert_eq!(sources.pool(), [0xBAD, 0xBAD, 0xABCDEF]);
}

#[test]
fn pictures_are_written_as_to_sources() {
    let (rundown, mut sources, [studio, interpreter]) = two_copies();
    let (mut canvas, mut scratch) = (black(4, 1), Scratch::new());
    let mut playing =
        Playing::begin(&rundown, &mut canvas, &mut sources, &mut scratch).expect("accepted");
    assert_eq!(playing.pixels_mut(studio).expect("there").len(), 2);
    assert_eq!(playing.pixels_mut(2), None);
    let refusal = playing
        .write_rgb(studio, &[0; 5])
        .expect_err("too few bytes");
    assert_eq!(refusal.cause(), Cause::SourceTable);
    let refusal = playing.write_rgba(2, &[0; 4]).expect_err("no such source");
    assert_eq!(refusal.cause(), Cause::NoSuchSource);
    playing.write_rgb(studio, &[1, 2, 3, 4, 5, 6]).expect("six");
    playing.step();
    playing
        .write_rgba(interpreter, &[255, 128, 0, 255])
        .expect("four");
    playing.step();
    assert_eq!(canvas.pixels(), [0x010203, 0xFF8000, 0, 0]);
}

#[test]
fn no_layer() {
    let (rundown, mut sources) = (Rundown::new(), Sources::new());
    let (mut canvas, mut scratch) = (black(4, 2), Scratch::new());
    let mut playing =
        Playing::begin(&rundown, &mut canvas, &mut sources, &mut scratch).expect("accepted");
    assert_eq!((playing.count(), playing.step()), (0, None));
}

#[test]
fn one_that_is_dropped_leaves_what_is_painted() {
    let (rundown, mut sources, _) = two_copies();
    let (mut canvas, mut scratch) = (black(4, 1), Scratch::new());
    for _ in 0..2 {
        // Begun again, it is at the lowest layer again.
        let begun = Playing::begin(&rundown, &mut canvas, &mut sources, &mut scratch);
        assert_eq!(begun.expect("accepted").step(), Some(9));
    }
    assert_eq!(canvas.pixels(), [0x112233, 0x445566, 0, 0]);
}

#[test]
fn the_scratch_grows_when_it_begins() {
    let (mut rundown, mut sources, _) = two_copies();
    let panel = Glass::new(Rect::new(0.0, 0.0, 4.0, 2.0), 1.0);
    rundown.add(20, panel).expect("in range");
    let (mut canvas, mut scratch) = (black(4, 2), Scratch::new());
    let mut playing =
        Playing::begin(&rundown, &mut canvas, &mut sources, &mut scratch).expect("accepted");
    assert_eq!(painted(&mut playing), [9, 10, 20]);
    assert_eq!(scratch.len(), 24);
    let mut whole = black(4, 2);
    play(&rundown, &mut whole, &sources, &mut Scratch::new()).expect("accepted");
    assert_eq!(canvas, whole);
}

#[test]
fn a_begin_is_refused_as_a_play_is() {
    let (mut rundown, mut sources, [studio, _]) = two_copies();
    let panel = Glass::new(Rect::new(0.0, 0.0, 4.0, 2.0), 1.0);
    rundown.add(20, panel).expect("in range");
    let wide = Frame::new(1, 0, 4, 2, SecurityTag::BlueWork);
    rundown.add(30, wide).expect("in range");
    let (mut canvas, mut scratch) = (black(4, 2), Scratch::new());
    let mut words = |rundown: &Rundown, sources: &mut Sources| {
        let begun = Playing::begin(rundown, &mut canvas, sources, &mut scratch);
        let refusal = begun.expect_err("refused");
        let played = play(rundown, &mut canvas, sources, &mut scratch);
        assert_eq!(played, Err(refusal));
        assert_eq!((canvas.pixels(), scratch.len()), (&[0; 8][..], 0));
        refusal.to_string()
    };
    assert_eq!(
        words(&rundown, &mut sources),
        "block 3, priority 30: the frame ends at column 5, and the canvas is 4 wide (cause 10)"
    );
    sources.remove(studio).expect("there");
    assert_eq!(
        words(&rundown, &mut sources),
        "block 0, priority 9: source 0 was removed (cause 9)"
    );
}

/// Blocks of copies of source 0 at other places, in that order.
fn copies(priorities: &[u16]) -> Vec<u8> {
    let places = (0..).map(|i| (i % 3, i / 3 % 2));
    let blocks = priorities.iter().zip(places);
    let blocks = blocks.map(|(priority, (x, y))| block(*priority, StraightCopy::new(0, x, y)));
    blocks.collect::<Vec<_>>().concat()
}

/// The copy with the lowest priority above the last one: its priority, and the canvas with it.
fn copied(lent: &Lent, last: Option<u16>) -> Option<(u16, Vec<u32>)> {
    let blocks = lent.rundown.chunks(BLOCK_LEN).enumerate();
    let numbered = blocks.map(|(i, block)| (u16::from_le_bytes([block[2], block[3]]), i));
    let (priority, i) = numbered.filter(|(p, _)| Some(*p) > last).min()?;
    let (x, y) = (i % 3, i / 3 % 2);
    let mut canvas = lent.canvas.clone();
    canvas[4 * y + x..][..2].copy_from_slice(&lent.pool);
    Some((priority, canvas))
}

/// A step beside the plain search. What it may not write is as it was, and after a refusal all is.
fn beside(lent: &mut Lent, last: Option<u16>) -> Option<u16> {
    let (before, expected) = (lent.clone(), copied(lent, last));
    let answer = lent.step(last);
    match expected {
        Some((priority, canvas)) => {
            assert_eq!((answer, &lent.canvas), (Ok(priority), &canvas), "{last:?}");
            let scratch = (before.a.len(), before.b.len());
            assert_eq!((lent.a.len(), lent.b.len()), scratch);
            (lent.canvas, lent.a, lent.b) =
                (before.canvas.clone(), before.a.clone(), before.b.clone());
            assert_eq!(*lent, before);
            lent.canvas = canvas;
        }
        None => {
            let refusal = answer.expect_err("none is left");
            assert_eq!((refusal.cause(), refusal.beside()), (Cause::NoNextLayer, 0));
            assert_eq!(*lent, before);
        }
    }
    answer.ok()
}

#[test]
fn any_number_may_be_the_last() {
    let mut lent = Lent::new(copies(&[256, 9, u16::MAX, 0, 255, 10]));
    let steps = [
        (None, Some(0)),
        (Some(0), Some(9)),
        (Some(9), Some(10)),
        (Some(9), Some(10)),
        (Some(11), Some(255)),
        (Some(255), Some(256)),
        (Some(8), Some(9)),
        (Some(256), Some(u16::MAX)),
        (Some(u16::MAX - 1), Some(u16::MAX)),
        (Some(u16::MAX), None),
        (None, Some(0)),
        (None, Some(0)),
    ];
    for (last, painted) in steps {
        lent.pool.rotate_left(1);
        lent.pool[0] += 0x010203;
        assert_eq!(beside(&mut lent, last), painted, "{last:?}");
    }
}

#[test]
fn drawn_numbers_may_be_the_last() {
    let mut draw = Draw(0x5EED_0007);
    let mut ended = 0;
    for _ in 0..300 {
        let mut priorities: Vec<u16> = (0..draw.below(9)).map(|_| draw.priority()).collect();
        priorities.extend([0, u16::MAX].iter().filter(|_| draw.below(3) == 0));
        priorities.sort_unstable();
        priorities.dedup();
        let by = draw.below(priorities.len().max(1) as u64) as usize;
        priorities.rotate_left(by);
        let mut lent = Lent::new(copies(&priorities));
        let before = lent.clone();
        assert_eq!(lent.begin(), Ok(priorities.len()));
        assert_eq!(lent, before, "a begin writes nothing");
        let mut last = None;
        for _ in 0..20 {
            lent.pool.fill_with(|| draw.next() as u32 & 0xFFFFFF);
            let painted = beside(&mut lent, last);
            ended += usize::from(painted.is_none());
            last = match draw.below(5) {
                0 => Some(draw.next() as u16),
                1 => None,
                _ => painted,
            };
        }
    }
    assert!((300..3000).contains(&ended), "{ended}");
}

/// Makes something wrong that is lent.
type Spoil = fn(&mut Lent);

#[test]
fn a_refused_step_changes_nothing_and_the_playing_goes_on() {
    let panel = block(20, Glass::new(Rect::new(0.0, 0.0, 4.0, 2.0), 1.0));
    let mut lent = Lent::new([panel, copies(&[30, 10])].concat());
    assert_eq!(lent.begin(), Ok(3));
    assert_eq!(lent.step(None), Ok(10));
    let wrong: [(Spoil, Cause); 6] = [
        (|lent| lent.width = 5, Cause::CanvasSize),
        (|lent| lent.pool.push(0), Cause::SourceTable),
        (|lent| lent.rundown.push(0), Cause::RundownLength),
        (|lent| lent.rundown[3 * BLOCK_LEN - 1] ^= 1, Cause::Check),
        (
            |lent| lent.rundown.extend(copy(30)),
            Cause::DuplicatePriority,
        ),
        (|lent| lent.b.truncate(23), Cause::ScratchTooShort),
    ];
    for (spoil, cause) in wrong {
        // The tests are of all layers, whichever would be painted, or none.
        for last in [None, Some(10), Some(20), Some(30)] {
            let mut wrong = lent.clone();
            spoil(&mut wrong);
            let before = wrong.clone();
            let refusal = wrong.step(last).expect_err("refused");
            assert_eq!((refusal.cause(), wrong.begin()), (cause, Err(refusal)));
            assert_eq!(wrong, before);
        }
    }
    assert_eq!(lent.step(Some(10)), Ok(20));
    assert_eq!(lent.step(Some(20)), Ok(30));
    let refusal = lent.step(Some(30)).expect_err("none is left");
    assert_eq!(refusal.cause(), Cause::NoNextLayer);
}

/// A show of a few layers of four sources, drawn at random, its blocks in any order.
fn show(draw: &mut Draw) -> (Rundown, Sources) {
    let (mut sources, mut rundown) = (Sources::new(), Rundown::new());
    for _ in 0..4 {
        let (width, height, pixels) = draw.picture();
        let source = Source::new(width, height, &pixels).expect("a source");
        sources.push(source).expect("room");
    }
    for _ in 0..8 {
        // Some are out of range or have a priority that is held, and are not added.
        let _ = rundown.add(draw.priority(), draw.layer());
    }
    (draw.shuffled(&rundown), sources)
}

#[test]
fn in_steps_a_show_ends_as_by_a_play() {
    let mut draw = Draw(0x5EED_0008);
    let (mut layers, mut scratch) = (0, Scratch::new());
    for _ in 0..400 {
        let (rundown, mut sources) = show(&mut draw);
        let [mut whole, mut canvas] = [black(40, 40), black(40, 40)];
        let count = play(&rundown, &mut whole, &sources, &mut scratch).expect("accepted");
        let before = sources.clone();
        let mut playing =
            Playing::begin(&rundown, &mut canvas, &mut sources, &mut scratch).expect("accepted");
        assert_eq!(playing.count(), count);
        let order = rundown.in_playing_order().map(|(priority, _)| priority);
        let painted = painted(&mut playing);
        assert!(order.eq(painted.iter().copied()), "{painted:?}");
        assert!(canvas == whole, "{rundown:?}");
        assert!(sources == before);
        layers += count;
    }
    assert!(layers > 2_500, "{layers} layers: too few to tell");
}

/// Other pixels in every source.
fn refresh(draw: &mut Draw, playing: &mut Playing<'_>) {
    for source in 0..4 {
        let pixels = playing.pixels_mut(source).expect("there");
        pixels.fill_with(|| draw.next() as u32);
    }
}

/// A rundown of these layers.
fn of(layers: &[(u16, Layer)]) -> Rundown {
    let mut rundown = Rundown::new();
    for (priority, layer) in layers {
        rundown.add(*priority, *layer).expect("in range");
    }
    rundown
}

#[test]
fn each_layer_shows_the_pictures_of_its_own_step() {
    let mut draw = Draw(0x5EED_0009);
    let (mut scratch, mut other) = (Scratch::new(), Scratch::new());
    for _ in 0..200 {
        let (rundown, mut sources) = show(&mut draw);
        let (mut canvas, mut expected) = (black(40, 40), black(40, 40));
        let mut shown = sources.clone();
        let mut playing =
            Playing::begin(&rundown, &mut canvas, &mut sources, &mut scratch).expect("accepted");
        for (priority, layer) in rundown.in_playing_order() {
            refresh(&mut draw, &mut playing);
            for source in 0..4 {
                let pixels = playing.pixels_mut(source).expect("there");
                shown
                    .pixels_mut(source)
                    .expect("there")
                    .copy_from_slice(pixels);
            }
            assert_eq!(playing.step(), Some(priority));
            let one = of(&[(priority, layer)]);
            play(&one, &mut expected, &shown, &mut other).expect("accepted");
            assert!(*playing.canvas() == expected, "{rundown:?}, {priority}");
        }
        assert_eq!(playing.step(), None);
    }
}

/// Plays a show twice in steps, with other pictures in every step, which differ in one source alone, and
/// answers how many pixels differ in all.
fn differing(draw: &mut Draw) -> usize {
    let (rundown, mut sources) = show(draw);
    let (hidden, table, mut others) = (
        draw.below(4) as u32,
        sources.table().clone(),
        sources.clone(),
    );
    let [mut one, mut two] = [black(40, 40), black(40, 40)];
    let [mut a, mut b] = [Scratch::new(), Scratch::for_canvas(40, 40)];
    // Scratch of other lengths, as long as both are enough, has no part in it.
    let mut first = Playing::begin(&rundown, &mut one, &mut sources, &mut a).expect("accepted");
    let mut second = Playing::begin(&rundown, &mut two, &mut others, &mut b).expect("accepted");
    let (mut painted, mut differing) = (Vec::new(), 0);
    for layer in rundown.in_playing_order() {
        refresh(draw, &mut first);
        for source in 0..4 {
            let (from, to) = (first.pixels_mut(source), second.pixels_mut(source));
            let (from, to) = from.zip(to).expect("there");
            match source == hidden {
                true => to.fill_with(|| draw.next() as u32),
                false => to.copy_from_slice(from),
            }
        }
        assert_eq!(first.step(), second.step());
        painted.push(layer);
        let stain = stain(&of(&painted), 40, 40, &table, hidden).expect("accepted");
        let pixels = first.canvas().pixels().iter().zip(second.canvas().pixels());
        let stained = pixels.zip(stain.as_bytes()).filter(|((a, b), _)| a != b);
        let stained: Vec<u8> = stained.map(|(_, stained)| *stained).collect();
        assert!(!stained.contains(&0), "{painted:?} show source {hidden}");
        differing += stained.len();
    }
    differing
}

#[test]
fn after_each_step_two_playings_agree_outside_the_stain() {
    let mut draw = Draw(0x5EED_000A);
    let differing: usize = (0..200).map(|_| differing(&mut draw)).sum();
    assert!(
        differing > 10_000,
        "{differing} pixels differ: too few to tell"
    );
}

#[test]
fn as_many_layers_as_there_may_be() {
    let mut rundown = Rundown::new();
    for i in (0..256).rev() {
        let fill = Fill::new(Rect::new(0.0, 0.0, 1.0, 1.0), tiglostrema::Color::WHITE);
        rundown.add(i * 257, fill).expect("in range");
    }
    let (mut canvas, mut sources, mut scratch) = (black(1, 1), Sources::new(), Scratch::new());
    let mut playing =
        Playing::begin(&rundown, &mut canvas, &mut sources, &mut scratch).expect("accepted");
    assert_eq!(playing.count(), 256);
    let painted = painted(&mut playing);
    assert!(painted.into_iter().eq((0..256).map(|i| i * 257)));
}
