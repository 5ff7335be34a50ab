//! 02's sentences on playing in steps, one by one, put to the reading.
mod given;

use given::{block, exact, glass, show};
use reading::{last_painted, packed, Cause, Effect, Show, Stain, BLOCK, MOST};

/// The priority that a step paints, or the cause's number and what stands beside it.
fn step(show: Show, last: Option<u16>) -> Result<u16, (u32, usize)> {
    let painted = show.step(last).map(|layer| layer.priority);
    painted.map_err(|(cause, beside)| (cause as u32, beside))
}

const NO_NEXT: Result<u16, (u32, usize)> = Err((16, 0));

#[test]
fn the_first_call_returns_the_layer_count() {
    let two = [exact(10, 0, 0, 0), exact(9, 1, 0, 0)].concat();
    assert_eq!(show(&two).begin(), Ok(2));
    assert_eq!(show(&[]).begin(), Ok(0));
    let short = Show {
        pool: 12,
        ..show(&two)
    };
    assert_eq!(short.begin(), Err((Cause::Sources, 0)));
}

#[test]
fn each_further_call_paints_the_next_higher_one() {
    // the higher one stands first in the buffer
    let two = [exact(10, 0, 0, 0), exact(9, 1, 0, 0)].concat();
    assert_eq!(step(show(&two), None), Ok(9));
    assert_eq!(step(show(&two), Some(9)), Ok(10));
    assert_eq!(step(show(&two), Some(10)), NO_NEXT);
    // none again
    assert_eq!(step(show(&two), None), Ok(9));
}

#[test]
fn priorities_are_numbers_from_0_to_65535() {
    let order = [0u16, 1, 2, 9, 10, 100, 255, 256, 257, 0x7FFF, 0x8000, 65535];
    let blocks = order.iter().rev().flat_map(|p| exact(*p, 0, 0, 0));
    let rundown: Vec<u8> = blocks.collect();
    let mut last = None;
    for priority in order {
        assert_eq!(step(show(&rundown), last), Ok(priority));
        last = Some(priority);
    }
    assert_eq!(step(show(&rundown), last), NO_NEXT);
}

#[test]
fn the_last_priority_need_not_be_there() {
    let two = [exact(10, 0, 0, 0), exact(20, 1, 0, 0)].concat();
    for (last, next) in [(0, 10), (9, 10), (11, 20), (19, 20)] {
        assert_eq!(step(show(&two), Some(last)), Ok(next), "{last}");
    }
    for last in [21, 65534, 65535] {
        assert_eq!(step(show(&two), Some(last)), NO_NEXT, "{last}");
    }
}

#[test]
fn what_is_above_65535_is_none() {
    for word in [1 << 16, (1 << 16) + 9, u32::MAX] {
        assert_eq!(last_painted(word), None, "{word}");
    }
    assert_eq!(last_painted(65535), Some(65535));
    assert_eq!(last_painted(0), Some(0));
}

#[test]
fn without_a_layer_above_it_is_16_with_0() {
    let one = exact(65535, 0, 0, 0);
    assert_eq!(step(show(&one), Some(65534)), Ok(65535));
    assert_eq!(step(show(&one), Some(65535)), NO_NEXT);
    for last in [None, Some(0), Some(65535)] {
        assert_eq!(step(show(&[]), last), NO_NEXT);
    }
    assert_eq!(packed(Err((Cause::Next, 0))), 16 << 32);
}

#[test]
fn each_step_repeats_the_tests() {
    // the glass needs 75 bytes; the copies above and below it need none
    let rundown = [exact(1, 0, 0, 0), glass(2, 0.0), exact(3, 1, 0, 0)].concat();
    let lent = show(&rundown);
    for last in [None, Some(1), Some(2), Some(3)] {
        let short = Show {
            scratch: [74, 1000],
            ..lent
        };
        assert_eq!(step(short, last), Err((11, 1)), "{last:?}");
        let small = Show {
            canvas: 199,
            ..lent
        };
        assert_eq!(step(small, last), Err((1, 0)), "{last:?}");
        let long = Show { pool: 14, ..lent };
        assert_eq!(step(long, last), Err((2, 0)), "{last:?}");
        let odd = &rundown[1..];
        assert_eq!(step(show(odd), last), Err((3, 0)), "{last:?}");
        let twice = [rundown.as_slice(), &exact(3, 0, 0, 0)].concat();
        assert_eq!(step(show(&twice), last), Err((8, 3)), "{last:?}");
    }
    assert_eq!(step(lent, Some(3)), NO_NEXT);
}

#[test]
fn all_layers_in_as_many_steps() {
    let blocks = (0..MOST as u16).map(|p| block(1, 255 - p, &[]));
    let rundown: Vec<u8> = blocks.flatten().collect();
    let show = show(&rundown);
    assert_eq!(show.begin(), Ok(MOST));
    let painted = |last: &Option<u16>| step(show, *last).ok();
    let steps: Vec<u16> = std::iter::successors(painted(&None), |p| painted(&Some(*p))).collect();
    assert_eq!(steps, (0..=255).collect::<Vec<u16>>());
}

/// What each layer does to the stain, in the order in which steps paint them from these priorities, and how many
/// pixels are stained after each. Source 0 is hidden.
fn stained(blocks: &[[u8; BLOCK]], lasts: &[Option<u16>]) -> Vec<(Effect, usize)> {
    let rundown = blocks.concat();
    let show = show(&rundown);
    let mut stain = Stain::empty(&show, 0);
    let mut after = |last: &Option<u16>| {
        let layer = show.step(*last).expect("it paints");
        let effect = stain.paint(&show, &layer);
        (effect, stain.holds.iter().filter(|held| **held).count())
    };
    lasts.iter().map(&mut after).collect()
}

#[test]
fn the_stain_of_the_layers_painted_so_far() {
    let blocks = [exact(1, 0, 0, 0), glass(2, 6.0), exact(3, 1, 0, 0)];
    let spreads = Effect::Spreads {
        by_window_alone: true,
    };
    let clears = Effect::Clears { any: true };
    let (adds, none) = ((Effect::Adds, 12), Effect::Clears { any: false });
    let in_order = stained(&blocks, &[None, Some(1), Some(2)]);
    assert_eq!(in_order, [adds, (spreads, 16), (clears, 15)]);
    // a layer that is skipped has none
    let skipped = stained(&blocks, &[Some(1), Some(2)]);
    assert_eq!(skipped, [(Effect::Apart, 0), (none, 0)]);
    // a layer that is painted again has it again, and so has the panel over it
    let again = stained(&blocks, &[Some(1), None, Some(2), None, Some(1)]);
    let apart = (Effect::Apart, 0);
    assert_eq!(again, [apart, adds, (clears, 11), adds, (spreads, 16)]);
}

#[test]
fn the_stain_goes_by_each_call_s_width() {
    // 4 by 3 pixels at (0, 0): of 20 columns, then of 10
    let rundown = exact(1, 0, 0, 0);
    let wide = show(&rundown);
    let high = Show {
        width: 10,
        height: 20,
        ..wide
    };
    let mut stain = Stain::empty(&wide, 0);
    for show in [wide, high] {
        let layer = show.step(None).expect("it paints");
        assert_eq!(stain.paint(&show, &layer), Effect::Adds);
    }
    let places = [0, 10, 20, 40].iter().flat_map(|from| *from..from + 4);
    let held: Vec<usize> = (0..200).filter(|i| stain.holds[*i]).collect();
    assert_eq!(held, places.collect::<Vec<usize>>());
}
