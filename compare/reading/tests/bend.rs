//! 02's sentences on tables that suit their bezel, one by one, put to the reading.
mod given;

use given::{block, exact, float, glass, show, W};
use reading::{add, judge, remove, Body, Cause, Show, BLOCK, BODY, MOST};

/// A glass of 2 by 2 with this bezel, and with these entries; the others are 0.
fn bent(priority: u16, bezel: f32, entries: &[(usize, f32)]) -> [u8; BLOCK] {
    let size = [float(40, 2.0), float(44, 2.0), float(68, bezel)];
    let entries = entries.iter().map(|(i, v)| float(104 + 4 * i, *v));
    let set: Vec<_> = size.into_iter().chain(entries).collect();
    block(4, priority, &set)
}

/// The same with the product of bezel 12, and the float above it.
fn suited(priority: u16) -> [u8; BLOCK] {
    bent(priority, 12.0, &[(3, f32::from_bits(0x4199_999A))])
}

fn torn(priority: u16) -> [u8; BLOCK] {
    bent(priority, 12.0, &[(3, f32::from_bits(0x4199_999B))])
}

fn body(block: [u8; BLOCK]) -> Body {
    *block.first_chunk().expect("a block has a body")
}

/// Another byte of the check.
fn unchecked(mut block: [u8; BLOCK]) -> [u8; BLOCK] {
    block[BODY] ^= 1;
    block
}

/// What play, the stain and the forecast all refuse these blocks for.
fn refused(blocks: &[[u8; BLOCK]]) -> (u32, usize) {
    let show = show(blocks.as_flattened());
    let (cause, at) = show.answer().expect_err("it is refused");
    assert_eq!(show.stain_answer(), Err((cause, at)));
    assert_eq!(show.forecast().err(), Some((cause, at)));
    (cause as u32, at)
}

/// Whether the entry is accepted, at each place but the last, with this bezel.
fn allows(bezel: u32, entry: u32) -> bool {
    let (bezel, v) = (f32::from_bits(bezel), f32::from_bits(entry));
    let answers: Vec<_> = (0..32).map(|i| judge(&bent(1, bezel, &[(i, v)]))).collect();
    let passes = answers[0].is_ok();
    let wanted = if passes { Ok(()) } else { Err(Cause::Bend) };
    assert!(answers.iter().all(|a| *a == wanted), "{bezel} and {v}");
    passes
}

#[test]
fn an_entry_is_at_most_the_product() {
    let products = [
        (0x3F00_0001, 0x3F4C_CCCF),
        (0x3F80_0000, 0x3FCC_CCCD),
        (0x4140_0000, 0x4199_999A),
        (0x4380_0000, 0x43CC_CCCD),
    ];
    for (bezel, product) in products {
        assert!(allows(bezel, product - 1), "{bezel:X}");
        assert!(allows(bezel, product), "{bezel:X}");
        assert!(!allows(bezel, product + 1), "{bezel:X}");
        // the end of an entry's range
        assert!(!allows(bezel, 0x4480_0000), "{bezel:X}");
    }
}

#[test]
fn the_product_is_rounded_in_f32() {
    // the exact products, which f64 holds, are below these entries
    for (bezel, entry) in [(0x3F00_0001, 0x3F4C_CCCF), (0x4140_0000, 0x4199_999A)] {
        let exact = f32::from_bits(bezel) as f64 * f32::from_bits(0x3FCC_CCCD) as f64;
        assert!(exact < f32::from_bits(entry) as f64);
        assert!(allows(bezel, entry));
    }
    // and this one's is above it: the next float is still too far
    let exact = f32::from_bits(0x3F00_0002) as f64 * f32::from_bits(0x3FCC_CCCD) as f64;
    assert!(f32::from_bits(0x3F4C_CCD0) as f64 <= exact);
    assert!(allows(0x3F00_0002, 0x3F4C_CCD0));
    assert!(!allows(0x3F00_0002, 0x3F4C_CCD1));
}

#[test]
fn it_is_tested_where_the_table_is_read() {
    for bezel in [0.0, -0.0, 0.5, 0.5f32.next_down()] {
        for entry in [f32::NAN, -f32::NAN, f32::INFINITY, f32::MAX, 0.9, -1.0] {
            let all: Vec<_> = (0..33).map(|i| (i, entry)).collect();
            assert_eq!(judge(&bent(1, bezel, &all)), Ok(()), "{bezel}: {entry}");
        }
    }
    // of other kinds the same bytes are unused
    for kind in [1, 2, 3, 5, 6, 7, 8] {
        assert_eq!(judge(&block(kind, 1, &[])), Ok(()));
        let entry = block(kind, 1, &[float(104, 1.0)]);
        assert_eq!(judge(&entry), Err(Cause::Form), "kind {kind}");
    }
    // also where nothing is painted: a side below 2, an empty clip, a place off the canvas
    let sides = [float(40, 2.0), float(44, 2.0)];
    let wide = [float(68, 12.0), float(104, 20.0)];
    for nothing in [float(40, 1.0), (244, 0), float(32, 16384.0)] {
        let set = [&sides[..], &wide, &[nothing]].concat();
        assert_eq!(refused(&[block(4, 1, &set)]), (15, 0));
    }
}

#[test]
fn a_zero_always_passes() {
    let zeros: Vec<_> = (0..33).map(|i| (i, [0.0, -0.0][i % 2])).collect();
    assert_eq!(judge(&bent(1, 0.5f32.next_up(), &zeros)), Ok(()));
    assert_eq!(judge(&bent(1, 256.0, &[(32, -0.0)])), Ok(()));
    assert_eq!(judge(&bent(1, 256.0, &[(32, 1.0)])), Err(Cause::Float));
}

#[test]
fn it_comes_after_the_other_tests_of_a_block() {
    let with = |at: usize, word: u32| {
        let set = [float(68, 12.0), float(104, 20.0), (at, word)];
        block(4, 1, &set)
    };
    assert_eq!(judge(&torn(1)), Err(Cause::Bend));
    assert_eq!(judge(&unchecked(torn(1))), Err(Cause::Check));
    assert_eq!(judge(&with(4, 1)), Err(Cause::Form), "an unused byte");
    let beyond = 1024.0f32.next_up();
    for entry in [f32::NAN, beyond, -1.0] {
        let (at, word) = float(108, entry);
        assert_eq!(judge(&with(at, word)), Err(Cause::Float), "{entry}");
        // alone, too
        assert_eq!(judge(&bent(1, 12.0, &[(0, entry)])), Err(Cause::Float));
    }
    assert_eq!(judge(&with(236, 16385)), Err(Cause::Integer), "the clip");
}

#[test]
fn it_comes_before_a_later_block_s_tests() {
    let absent = exact(2, 2, 0, 0);
    let beyond = block(8, 3, &[(8, W), (16, 1)]);
    assert_eq!(refused(&[torn(1), unchecked(exact(2, 0, 0, 0))]), (15, 0));
    assert_eq!(refused(&[torn(1), absent]), (15, 0));
    assert_eq!(refused(&[torn(1), beyond]), (15, 0));
    assert_eq!(refused(&[absent, torn(1)]), (9, 0));
    assert_eq!(refused(&[beyond, torn(1)]), (10, 0));
    assert_eq!(refused(&[suited(4), torn(1), torn(5)]), (15, 1));
}

#[test]
fn it_comes_before_8_and_11() {
    let twice = [glass(1, 0.0), glass(1, 5.0), torn(2)];
    assert_eq!(refused(&twice[..2]), (8, 1));
    assert_eq!(refused(&twice), (15, 2));
    let rundown = [glass(1, 0.0), torn(2)].concat();
    let none = |rundown| Show {
        scratch: [0, 0],
        ..show(rundown)
    };
    assert_eq!(none(&rundown).answer(), Err((Cause::Bend, 1)));
    let first = &rundown[..BLOCK];
    assert_eq!(none(first).answer(), Err((Cause::Scratch, 0)));
}

/// A buffer of these blocks, with room for so many bytes.
fn held(blocks: &[[u8; BLOCK]], room: usize) -> Vec<u8> {
    let mut bytes = blocks.concat();
    bytes.resize(room, 0xEE);
    bytes
}

#[test]
fn add_tests_held_blocks_and_new_bytes() {
    let answer = |blocks: &[[u8; BLOCK]], new: [u8; BLOCK], room: usize| {
        let mut bytes = held(blocks, room);
        let before = bytes.clone();
        let answer = add(&mut bytes, blocks.len(), &body(new));
        assert!(answer.is_ok() || bytes == before);
        answer.map_err(|(cause, at)| (cause as u32, at))
    };
    let good = glass(1, 0.0);
    let full = BLOCK * 4;
    assert_eq!(answer(&[good], suited(2), full), Ok(2));
    assert_eq!(answer(&[suited(2)], good, full), Ok(2));
    // 3 before all; each held block's 4 to 7, then its 15; a later block's 4 after it; then 8
    let three = [torn(2); MOST + 1];
    assert_eq!(answer(&three, good, 300 * BLOCK), Err((3, 0)));
    assert_eq!(answer(&[good, torn(2)], suited(3), full), Err((15, 1)));
    let spoilt = unchecked(torn(2));
    assert_eq!(answer(&[spoilt, torn(3)], good, full), Err((4, 0)));
    assert_eq!(answer(&[torn(3), spoilt], good, full), Err((15, 0)));
    assert_eq!(answer(&[good, good, torn(2)], good, full), Err((15, 2)));
    // a held block's 8 before the new bytes' 15; this beside the count, before 8 and 12
    assert_eq!(answer(&[good, good], torn(2), full), Err((8, 1)));
    assert_eq!(answer(&[good], torn(2), full), Err((15, 1)));
    assert_eq!(answer(&[good], torn(1), full), Err((15, 1)));
    assert_eq!(answer(&[good], torn(2), BLOCK), Err((15, 1)));
    assert_eq!(answer(&[good], suited(2), BLOCK), Err((12, 1)));
    let form = block(4, 2, &[float(68, 12.0), float(104, 20.0), (4, 1)]);
    assert_eq!(answer(&[good], form, full), Err((5, 1)));
}

#[test]
fn remove_tests_held_blocks() {
    let answer = |blocks: &[[u8; BLOCK]], priority: u16| {
        let mut bytes = held(blocks, blocks.len() * BLOCK);
        let before = bytes.clone();
        let answer = remove(&mut bytes, blocks.len(), priority);
        assert!(answer.is_ok() || bytes == before);
        answer.map_err(|(cause, at)| (cause as u32, at))
    };
    let good = glass(1, 0.0);
    assert_eq!(answer(&[good, suited(2)], 2), Ok(1));
    // not even the torn layer itself; and before 8 and 13
    assert_eq!(answer(&[good, torn(2)], 2), Err((15, 1)));
    assert_eq!(answer(&[good, torn(2)], 1), Err((15, 1)));
    assert_eq!(answer(&[good, good, torn(2)], 1), Err((15, 2)));
    assert_eq!(answer(&[good, torn(2)], 9), Err((15, 1)));
}
