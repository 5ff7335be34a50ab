//! Tables that suit their bezel and tables that do not: the worked examples by their bits, in every call
//! that tests blocks, and where this test stands among the others.
mod common;

use common::{bent, block, copy, patched};
use tiglostrema::raw::{self, BLOCK_LEN, BODY_LEN, BOXES_LEN, TOTALS_LEN};
use tiglostrema::{Cause, Frame, Glass, Layer, Rect, Refusal, Rundown, SecurityTag};

/// A bezel, the most that it allows, and the next float above that.
const EXAMPLES: [[u32; 3]; 3] = [
    [0x3F00_0001, 0x3F4C_CCCF, 0x3F4C_CCD0],
    [0x4140_0000, 0x4199_999A, 0x4199_999B],
    [0x4380_0000, 0x43CC_CCCD, 0x43CC_CCCE],
];

/// A count, or the cause and its block.
type Said = Result<usize, (Cause, Option<usize>)>;

fn said(answer: Result<usize, Refusal>) -> Said {
    answer.map_err(|refusal| (refusal.cause(), refusal.block()))
}

/// A panel that does not suit, by the least that can be.
fn torn(priority: u16) -> Vec<u8> {
    bent(priority, 0x4140_0000, 0, 0x4199_999B)
}

fn body(block: &[u8]) -> [u8; BODY_LEN] {
    block[..BODY_LEN].try_into().expect("508 bytes")
}

/// A play on 4 by 2 pixels with one source, with scratch of that length.
fn played(rundown: &[u8], scratch: usize) -> Said {
    let mut canvas = [0xAB00_0000; 8];
    let (mut a, mut b) = (vec![1; scratch], vec![2; scratch]);
    let pool = [0x112233, 0x445566];
    let table = [2, 1];
    let answer = raw::play(rundown, 4, 2, &mut canvas, &table, &pool, &mut a, &mut b);
    assert!(answer.is_ok() || canvas == [0xAB00_0000; 8]);
    said(answer)
}

/// What a play, a stain and a forecast say of a rundown.
fn shown(rundown: &[u8]) -> [Said; 3] {
    let (mut boxes, mut totals, mut map) = ([7; BOXES_LEN], [7; TOTALS_LEN], [7; 8]);
    let table = [2, 1];
    [
        played(rundown, 24),
        said(raw::stain_into(rundown, 4, 2, &table, 0, &mut map)),
        said(raw::forecast_into(
            rundown,
            4,
            2,
            &table,
            &mut boxes,
            &mut totals,
        )),
    ]
}

/// What an add and a remove say of the blocks that are held; the one removes what the other adds.
fn changed(rundown: &[u8]) -> [Said; 2] {
    let count = rundown.len() / BLOCK_LEN;
    let mut buffer = [rundown, &[0; BLOCK_LEN]].concat();
    let before = buffer.clone();
    let added = said(raw::add(&mut buffer, count, &body(&copy(999))));
    let removed = said(raw::remove(&mut buffer, added.unwrap_or(count), 999));
    assert!(added.is_ok() || buffer == before);
    [added, removed]
}

/// Every call takes the rundown.
fn suits(rundown: &[u8]) {
    let count = rundown.len() / BLOCK_LEN;
    assert_eq!(shown(rundown), [Ok(count); 3]);
    assert_eq!(changed(rundown), [Ok(count + 1), Ok(count)]);
    assert!(Rundown::from_bytes(rundown).is_ok());
}

/// Every call refuses the rundown by that cause.
fn refused(rundown: &[u8], cause: Cause, block: usize) {
    let answer = Err((cause, Some(block)));
    assert_eq!(shown(rundown), [answer; 3]);
    assert_eq!(changed(rundown), [answer; 2]);
    let refusal = Rundown::from_bytes(rundown).expect_err("refused");
    assert_eq!(said(Err(refusal)), answer);
}

#[test]
fn the_examples_at_every_entry() {
    for [bezel, most, above] in EXAMPLES {
        assert_eq!(
            Glass::most_displacement(f32::from_bits(bezel)).to_bits(),
            most
        );
        for place in 0..32 {
            suits(&bent(7, bezel, place, most));
            refused(&bent(7, bezel, place, above), Cause::Bend, 0);
        }
    }
}

#[test]
fn up_to_half_a_pixel_of_bezel_no_table_is_read() {
    for bezel in [0, 0x3EFF_FFFF, 0x3F00_0000] {
        let nans = 0x7FC0_0000_u32.to_le_bytes().repeat(33);
        suits(&patched(bent(7, bezel, 0, 0), 104, &nans));
        suits(&bent(7, bezel, 5, 1024.0_f32.to_bits()));
    }
}

#[test]
fn zeros_suit_every_bezel_and_an_empty_box_is_tested() {
    suits(&bent(7, 0x3F00_0001, 0, (-0.0_f32).to_bits()));
    let nothing = patched(torn(7), 40, &[0; 8]);
    refused(&nothing, Cause::Bend, 0);
    let clipped = patched(torn(7), 236, &[0; 16]);
    refused(&clipped, Cause::Bend, 0);
}

#[test]
fn six_and_seven_are_tested_before() {
    let beyond = f32::from_bits(0x4480_0001); // the float above 1024
    for wrong in [f32::NAN, f32::INFINITY, beyond, -1.0] {
        let table = patched(torn(7), 104 + 4 * 31, &wrong.to_le_bytes());
        refused(&table, Cause::FloatRange, 0);
    }
    let end = patched(torn(7), 104 + 4 * 32, &1.0_f32.to_le_bytes());
    refused(&end, Cause::FloatRange, 0);
    let clip = 16385_i32.to_le_bytes();
    refused(&patched(torn(7), 236, &clip), Cause::IntegerRange, 0);
    refused(&patched(end, 236, &clip), Cause::FloatRange, 0);
}

#[test]
fn its_place_among_the_tests_of_blocks() {
    let mut unsealed = copy(8);
    unsealed[BLOCK_LEN - 1] ^= 1;
    refused(&[torn(7), unsealed.clone()].concat(), Cause::Bend, 0);
    refused(&[unsealed, torn(7)].concat(), Cause::Check, 0);
    // A priority twice is looked for behind all that lies in a single block.
    refused(&[copy(3), copy(3), torn(7)].concat(), Cause::Bend, 2);
    refused(&[torn(3), torn(3)].concat(), Cause::Bend, 0);
    // 9 and 10 are tested in their block where there are sources and a canvas.
    let absent = patched(copy(8), 4, &[1]);
    let wide = block(9, Frame::new(1, 0, 4, 2, SecurityTag::BlueWork));
    for (other, cause) in [(absent, Cause::NoSuchSource), (wide, Cause::FrameTooWide)] {
        refused(&[torn(7), other.clone()].concat(), Cause::Bend, 0);
        let behind = [other, torn(7)].concat();
        assert_eq!(shown(&behind), [Err((cause, Some(0))); 3]);
        assert_eq!(changed(&behind), [Err((Cause::Bend, Some(1))); 2]);
    }
    // The scratch comes last of all.
    let panel = block(3, Glass::new(Rect::new(0.0, 0.0, 4.0, 2.0), 0.0));
    let rundown = [panel, torn(7)].concat();
    assert_eq!(played(&rundown, 0), Err((Cause::Bend, Some(1))));
}

#[test]
fn the_new_block_of_an_add() {
    let added = |held: &[u8], block: &[u8]| {
        let mut buffer = held.to_vec();
        said(raw::add(&mut buffer, held.len() / BLOCK_LEN, &body(block)))
    };
    let bend = |block| Err((Cause::Bend, Some(block)));
    // There is no room for it, and its priority is held: both are tested later.
    assert_eq!(added(&copy(7), &torn(7)), bend(1));
    assert_eq!(added(&[], &torn(7)), bend(0));
    assert_eq!(added(&torn(7), &copy(8)), bend(0));
    let twice = [copy(3), copy(3)].concat();
    let duplicate = Err((Cause::DuplicatePriority, Some(1)));
    assert_eq!(added(&twice, &torn(7)), duplicate);
}

#[test]
fn a_layer_that_does_not_suit_is_named() {
    let mut table = [0.0; 33];
    (table[5], table[9]) = (3.5, 4.5);
    let panel = Glass::new(Rect::new(0.0, 0.0, 40.0, 20.0), 1.0);
    let mut rundown = Rundown::new();
    rundown.add(1, panel.with_bezel(3.0, table)).expect("suits");
    let before = rundown.clone();
    let words = "block 0, priority 1: `displacement[9]` is 4.5, \
                 and a bezel of 2.5 allows at most 4 (cause 15)";
    let narrow = panel.with_bezel(2.5, table);
    let refusals = [
        rundown.replace(1, narrow).expect_err("torn"),
        rundown
            .update(1, |layer| {
                if let Layer::Glass(glass) = layer {
                    glass.bezel = 2.5;
                }
            })
            .expect_err("torn"),
    ];
    for refusal in refusals {
        assert_eq!(refusal.cause(), Cause::Bend);
        assert_eq!(refusal.field(), Some("displacement"));
        assert_eq!(refusal.to_string(), words);
    }
    let added = rundown.add(2, narrow).expect_err("torn").to_string();
    assert!(added.starts_with("block 1, priority 2: `displacement[9]`"));
    // Of several the first.
    let refusal = rundown.add(2, panel.with_bezel(2.0, table));
    let words = "block 1, priority 2: `displacement[5]` is 3.5, \
                 and a bezel of 2 allows at most 3.2 (cause 15)";
    assert_eq!(refusal.expect_err("torn").to_string(), words);
    assert_eq!(rundown, before);
}
