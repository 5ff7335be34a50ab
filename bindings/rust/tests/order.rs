//! Where blocks stand: in ascending priority after every add and remove that is carried out, in whatever
//! order they came, and as they were after everything else.
mod common;

use common::{bent, copy, patched};
use std::fmt::Debug;
use tiglostrema::raw::{self, BLOCK_LEN, BODY_LEN};
use tiglostrema::{
    play, Canvas, Cause, Color, Fill, Glass, Layer, Rect, Refusal, Rundown, Scratch, Source,
    Sources, StraightCopy, MAX_LAYERS,
};

/// Neighbours whose order is another one as text (9, 10), by the low byte (255, 256) and as signed
/// numbers (32767, 32768), and both ends.
const ASCENDING: [u16; 8] = [0, 9, 10, 255, 256, 32767, 32768, 65535];

/// A layer that no other priority has.
fn layer(priority: u16) -> Layer {
    StraightCopy::new(u32::from(priority), 0, 7).into()
}

/// The layers of these priorities, added in this order.
fn added(priorities: &[u16]) -> Rundown {
    let mut rundown = Rundown::new();
    for priority in priorities {
        rundown.add(*priority, layer(*priority)).expect("in range");
    }
    rundown
}

/// Blocks side by side in this order, as no add leaves them.
fn joined(priorities: &[u16]) -> Rundown {
    let blocks = priorities.iter().map(|p| added(&[*p]).into_bytes());
    let bytes = blocks.collect::<Vec<_>>().concat();
    let rundown = Rundown::from_bytes(&bytes).expect("each once");
    assert_eq!(rundown.as_bytes(), bytes, "they are kept");
    rundown
}

fn priorities(rundown: &Rundown) -> Vec<u16> {
    rundown.iter().map(|(priority, _)| priority).collect()
}

/// Every order in which these may stand.
fn orders(all: &[u16]) -> Vec<Vec<u16>> {
    if all.is_empty() {
        return vec![vec![]];
    }
    let mut found = Vec::new();
    for first in all {
        let rest: Vec<u16> = all.iter().copied().filter(|p| p != first).collect();
        let behind = orders(&rest).into_iter();
        found.extend(behind.map(|rest| [&[*first][..], &rest].concat()));
    }
    found
}

#[test]
fn the_worked_example() {
    let mut rundown = joined(&[10, 9]);
    assert_eq!(priorities(&rundown), [10, 9]);
    assert_eq!(rundown.add(256, layer(256)), Ok(3));
    assert_eq!(priorities(&rundown), [9, 10, 256]);
    assert_eq!(rundown.remove(10), Ok(2));
    assert_eq!(priorities(&rundown), [9, 256]);
}

#[test]
fn layers_ascend_in_whatever_order_they_are_added() {
    let mut turned = ASCENDING;
    turned.reverse();
    let mut across = ASCENDING;
    across.rotate_left(3);
    for order in [ASCENDING, turned, across] {
        let rundown = added(&order);
        assert_eq!(priorities(&rundown), ASCENDING);
        assert_eq!(rundown, joined(&ASCENDING), "and each block is whole");
    }
}

#[test]
fn a_layer_that_is_removed_and_added_again_gives_the_bytes_back() {
    for len in 1..=ASCENDING.len() {
        let before = added(&ASCENDING[..len]);
        for priority in &ASCENDING[..len] {
            let mut rundown = before.clone();
            let removed = rundown.get(*priority).expect("there");
            assert_eq!(rundown.remove(*priority), Ok(len - 1));
            assert_eq!(rundown.get(*priority), None);
            assert_eq!(rundown.as_bytes().len(), BLOCK_LEN * (len - 1));
            assert_eq!(rundown.add(*priority, removed), Ok(len));
            assert_eq!(rundown.as_bytes(), before.as_bytes());
        }
    }
}

#[test]
fn a_layer_that_is_added_and_removed_leaves_the_bytes() {
    for new in ASCENDING {
        let others: Vec<u16> = ASCENDING.into_iter().filter(|p| *p != new).collect();
        let before = added(&others);
        let mut rundown = before.clone();
        assert_eq!(rundown.add(new, layer(new)), Ok(ASCENDING.len()));
        assert_eq!(rundown.remove(new), Ok(others.len()));
        assert_eq!(rundown.as_bytes(), before.as_bytes());
    }
}

#[test]
fn a_replaced_layer_is_one_removed_and_one_added() {
    let other = Fill::new(Rect::new(1.0, 2.0, 3.0, 4.0), Color::WHITE);
    for priority in ASCENDING {
        let mut rundown = added(&ASCENDING);
        rundown.replace(priority, layer(priority)).expect("there");
        assert_eq!(rundown.as_bytes(), added(&ASCENDING).as_bytes());
        rundown.replace(priority, other).expect("there");
        let mut two_calls = added(&ASCENDING);
        two_calls.remove(priority).expect("there");
        two_calls.add(priority, other).expect("in range");
        assert_eq!(rundown.as_bytes(), two_calls.as_bytes());
    }
}

#[test]
fn an_unordered_rundown_leaves_ordered() {
    for order in orders(&[9, 10, 255, 256]) {
        for new in [0, 100, 65535] {
            let mut rundown = joined(&order);
            assert_eq!(rundown.add(new, layer(new)), Ok(5));
            assert_eq!(rundown, added(&[new, 9, 10, 255, 256]));
        }
        for gone in &order {
            let mut rundown = joined(&order);
            assert_eq!(rundown.remove(*gone), Ok(3));
            let rest: Vec<u16> = order.iter().copied().filter(|p| p != gone).collect();
            assert_eq!(rundown, added(&rest));
        }
    }
}

#[test]
fn as_many_as_there_may_be_the_other_way_round() {
    let descending: Vec<u16> = (0..MAX_LAYERS as u16).rev().map(|n| 257 * n).collect();
    let mut rundown = joined(&descending);
    assert_eq!(rundown.remove(257), Ok(255));
    assert_eq!(rundown.add(257, layer(257)), Ok(256));
    assert_eq!(rundown, added(&descending));
    let mut rundown = joined(&descending[1..]);
    assert_eq!(rundown.add(65535, layer(65535)), Ok(256));
    assert_eq!(rundown, added(&descending));
}

#[test]
fn bytes_are_kept_in_the_order_in_which_they_come() {
    for order in orders(&[9, 10, 255, 256]) {
        let mut rundown = joined(&order);
        assert_eq!(priorities(&rundown), order);
        let before = rundown.clone();
        // One block is written over, and the others are not touched.
        rundown.replace(10, layer(10)).expect("there");
        rundown.update(256, |_| {}).expect("there");
        assert_eq!(rundown.as_bytes(), before.as_bytes());
        rundown.replace(255, layer(3)).expect("there");
        assert_eq!(priorities(&rundown), order);
        assert!(before
            .in_playing_order()
            .eq(added(&order).in_playing_order()));
    }
}

#[test]
fn every_order_has_the_same_picture() {
    let mut sources = Sources::new();
    let (studio, signer) = ([0x112233; 4], [0x445566; 2]);
    for (width, pixels) in [(4, &studio[..]), (2, &signer)] {
        let source = Source::new(width, 1, pixels).expect("a source");
        sources.push(source).expect("room");
    }
    let pictures = [[10, 9], [9, 10]].map(|order| {
        let blocks = order.map(|priority| {
            let layer = StraightCopy::new(u32::from(priority) - 9, 1, 0);
            common::block(priority, layer)
        });
        let rundown = Rundown::from_bytes(&blocks.concat()).expect("two layers");
        let mut canvas = Canvas::new(4, 1).expect("a canvas");
        assert_eq!(
            play(&rundown, &mut canvas, &sources, &mut Scratch::new()),
            Ok(2)
        );
        assert_eq!(priorities(&rundown), order, "and nothing is ordered");
        canvas.into_pixels()
    });
    assert_eq!(pictures[0], [0, 0x445566, 0x445566, 0x112233]);
    assert_eq!(pictures[1], pictures[0]);
}

/// The cause of a call that is refused, and leaves the rundown's bytes.
fn refused<T: Debug>(
    rundown: &Rundown,
    call: impl FnOnce(&mut Rundown) -> Result<T, Refusal>,
) -> Cause {
    let mut left = rundown.clone();
    let refusal = call(&mut left).expect_err("refused");
    assert_eq!(left.as_bytes(), rundown.as_bytes());
    refusal.cause()
}

#[test]
fn a_refusal_orders_nothing() {
    let rect = Rect::new(0.0, 0.0, 9.0, 9.0);
    let round = Fill::new(rect, Color::WHITE).with_radius(-1.0);
    let far = StraightCopy::new(0, 16385, 0);
    let mut table = [0.0; 33];
    table[0] = 1.7;
    let torn = Glass::new(rect, 1.0).with_bezel(1.0, table);
    for order in orders(&[9, 10, 256]) {
        let held = joined(&order);
        assert_eq!(refused(&held, |r| r.add(5, round)), Cause::FloatRange);
        assert_eq!(refused(&held, |r| r.add(5, far)), Cause::IntegerRange);
        assert_eq!(refused(&held, |r| r.add(5, torn)), Cause::Bend);
        assert_eq!(
            refused(&held, |r| r.add(10, layer(10))),
            Cause::DuplicatePriority
        );
        assert_eq!(refused(&held, |r| r.remove(5)), Cause::NoSuchPriority);
        assert_eq!(
            refused(&held, |r| r.replace(5, layer(5))),
            Cause::NoSuchPriority
        );
        assert_eq!(refused(&held, |r| r.replace(9, far)), Cause::IntegerRange);
    }
    let descending: Vec<u16> = (1..=MAX_LAYERS as u16).rev().collect();
    let full = joined(&descending);
    assert_eq!(refused(&full, |r| r.add(0, layer(0))), Cause::RundownFull);
    assert_eq!(refused(&full, |r| r.remove(0)), Cause::NoSuchPriority);
}

/// What an add and a remove say of the blocks that are held, with room for one more: refused, both, and
/// every byte of the buffer is as it was.
fn both_refused(blocks: &[Vec<u8>]) -> (Cause, Option<usize>) {
    let count = blocks.len();
    let mut buffer = [blocks.concat(), vec![0xA5; BLOCK_LEN]].concat();
    let before = buffer.clone();
    let body: [u8; BODY_LEN] = copy(5)[..BODY_LEN].try_into().expect("508 bytes");
    let refusal = raw::add(&mut buffer, count, &body).expect_err("refused");
    assert_eq!(raw::remove(&mut buffer, count, 256), Err(refusal));
    assert!(buffer == before);
    (refusal.cause(), refusal.block())
}

#[test]
fn held_blocks_are_counted_as_they_came() {
    let mut unsealed = copy(9);
    unsealed[BLOCK_LEN - 1] ^= 1;
    let wrong = [
        (unsealed, Cause::Check),
        (patched(copy(9), 0, &[9]), Cause::Form),
        (
            patched(copy(9), 48, &f32::NAN.to_le_bytes()),
            Cause::FloatRange,
        ),
        (patched(copy(9), 77, &[1]), Cause::IntegerRange),
        (bent(9, 0x4140_0000, 0, 0x4199_999B), Cause::Bend),
        (copy(256), Cause::DuplicatePriority),
    ];
    for (block, cause) in wrong {
        // It has the lowest priority, and comes behind two others.
        let blocks = [copy(256), copy(10), block];
        assert_eq!(both_refused(&blocks), (cause, Some(2)));
    }
}

#[test]
fn a_buffer_of_ones_own_is_ordered_at_its_front() {
    let held = [copy(10), copy(9)].concat();
    let mut buffer = [&held[..], &[0xA5; 2 * BLOCK_LEN]].concat();
    let body: [u8; BODY_LEN] = copy(256)[..BODY_LEN].try_into().expect("508 bytes");
    assert_eq!(raw::add(&mut buffer, 2, &body), Ok(3));
    assert!(buffer[..3 * BLOCK_LEN] == [copy(9), copy(10), copy(256)].concat());
    assert_eq!(raw::remove(&mut buffer, 3, 10), Ok(2));
    assert!(buffer[..2 * BLOCK_LEN] == [copy(9), copy(256)].concat());
    // A count lower than the blocks that lie there: the others are none of the rundown.
    let mut buffer = [copy(10), copy(9), copy(3)].concat();
    assert_eq!(raw::remove(&mut buffer, 2, 9), Ok(1));
    assert!(buffer[..BLOCK_LEN] == copy(10));
}
