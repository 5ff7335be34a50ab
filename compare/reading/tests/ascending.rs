//! 02's sentences on ascending blocks, one by one, put to the reading.
use reading::{add, checked, remove, Answer, Body, Cause, BLOCK, BODY, MOST};

/// A fill of this priority, and of a colour that no other one has.
fn new(priority: u16) -> Body {
    let mut body = [0; BODY];
    body[0] = 1;
    body[2..4].copy_from_slice(&priority.to_le_bytes());
    body[56..58].copy_from_slice(&priority.to_be_bytes());
    body
}

/// Blocks of these priorities, in this order.
fn blocks(priorities: &[u16]) -> Vec<u8> {
    priorities.iter().flat_map(|p| checked(&new(*p))).collect()
}

/// The same with room for one more.
fn rundown(priorities: &[u16]) -> Vec<u8> {
    [blocks(priorities), vec![0xEE; BLOCK]].concat()
}

/// Whether these blocks stand at the front, in this order.
fn begins(bytes: &[u8], priorities: &[u16]) -> bool {
    bytes.starts_with(&blocks(priorities))
}

#[test]
fn after_add_and_after_remove_they_ascend() {
    let mut held = rundown(&[10, 9]);
    assert_eq!(add(&mut held, 2, &new(256)), Ok(3));
    assert!(begins(&held, &[9, 10, 256]));
    assert_eq!(remove(&mut held, 3, 10), Ok(2));
    assert!(begins(&held, &[9, 256]));
}

#[test]
fn they_ascend_as_numbers() {
    // as text 10 would stand before 9, by the low byte 256 before 1, with a sign 32768 before all
    let numbers = [0, 1, 9, 10, 255, 256, 0x7FFF, 0x8000, 0xFFFF];
    let mixed = [0x8000, 10, 256, 0, 0xFFFF, 9, 0x7FFF, 255];
    let mut held = rundown(&mixed);
    assert_eq!(add(&mut held, 8, &new(1)), Ok(9));
    assert!(begins(&held, &numbers));
}

#[test]
fn a_new_block_stands_first_between_or_last() {
    for (priority, expected) in [(1, [1, 2, 4]), (3, [2, 3, 4]), (5, [2, 4, 5])] {
        for before in [[2, 4], [4, 2]] {
            let mut held = rundown(&before);
            assert_eq!(add(&mut held, 2, &new(priority)), Ok(3));
            assert!(begins(&held, &expected), "{before:?} and {priority}");
        }
    }
}

#[test]
fn whichever_goes_the_others_ascend() {
    for (priority, expected) in [(2, [3, 4]), (3, [2, 4]), (4, [2, 3])] {
        for before in [[2, 3, 4], [4, 3, 2], [3, 4, 2]] {
            let mut held = rundown(&before);
            assert_eq!(remove(&mut held, 3, priority), Ok(2));
            assert!(begins(&held, &expected), "{before:?} without {priority}");
        }
    }
    let mut only = rundown(&[7]);
    assert_eq!(remove(&mut only, 1, 7), Ok(0));
}

/// Refused, and no byte has changed.
fn refused(before: &[u8], work: impl Fn(&mut [u8]) -> Answer) -> (Cause, usize) {
    let mut after = before.to_vec();
    let answer = work(&mut after).expect_err("it is refused");
    assert_eq!(after, before);
    answer
}

#[test]
fn a_refusal_orders_nothing() {
    let held = rundown(&[10, 9, 256]);
    assert_eq!(refused(&held, |b| add(b, 5, &new(1))), (Cause::Rundown, 0));
    assert_eq!(refused(&held, |b| add(b, 3, &[0; BODY])), (Cause::Form, 3));
    assert_eq!(refused(&held, |b| add(b, 3, &new(9))), (Cause::Priority, 3));
    let full = &held[..3 * BLOCK];
    assert_eq!(refused(full, |b| add(b, 3, &new(1))), (Cause::Room, 3));
    assert_eq!(refused(&held, |b| remove(b, 5, 9)), (Cause::Rundown, 0));
    assert_eq!(refused(&held, |b| remove(b, 3, 8)), (Cause::Absent, 0));
    let twice = rundown(&[10, 9, 10]);
    let repeated = (Cause::Priority, 2);
    assert_eq!(refused(&twice, |b| add(b, 3, &new(1))), repeated);
    assert_eq!(refused(&twice, |b| remove(b, 3, 9)), repeated);
}

#[test]
fn a_layer_that_comes_back_restores_the_bytes() {
    let priorities: Vec<u16> = (0..MOST as u16).map(|i| 255 * i).collect();
    let before = rundown(&priorities);
    for at in [0, 1, 100, MOST - 2, MOST - 1] {
        let mut held = before.clone();
        assert_eq!(remove(&mut held, MOST, priorities[at]), Ok(MOST - 1));
        assert_eq!(add(&mut held, MOST - 1, &new(priorities[at])), Ok(MOST));
        assert!(begins(&held, &priorities));
    }
}
