//! 01's sentences on blocks, one by one, put to the reading.
use reading::{add, check_of, checked, judge, judge_body, remove};
use reading::{Answer, Body, Cause, BLOCK, BODY, MOST};

/// A block of zeros but for these bytes: with a clip of 0 0 0 0 and floats of 0 every range holds.
fn body(kind: u8, set: &[(usize, &[u8])]) -> Body {
    let mut body = [0; BODY];
    body[0] = kind;
    for (at, bytes) in set {
        body[*at..*at + bytes.len()].copy_from_slice(bytes);
    }
    body
}

fn cause(kind: u8, at: usize, bytes: &[u8]) -> Option<Cause> {
    judge(&checked(&body(kind, &[(at, bytes)]))).err()
}

fn float(kind: u8, at: usize, v: f32) -> Option<Cause> {
    cause(kind, at, &v.to_le_bytes())
}

fn fill(paint: u8, at: usize, v: f32) -> Option<Cause> {
    judge_body(&body(1, &[(29, &[paint]), (at, &v.to_le_bytes())])).err()
}

#[test]
fn a_block_of_zeros_of_each_kind_passes() {
    for kind in 1..=8 {
        assert_eq!(judge(&checked(&body(kind, &[]))), Ok(()), "kind {kind}");
    }
}

#[test]
fn kind_tag_and_paint_are_known() {
    for kind in [0, 9, 255] {
        assert_eq!(cause(kind, 1, &[]), Some(Cause::Form));
    }
    assert_eq!(cause(8, 28, &[6]), None);
    assert_eq!(cause(8, 28, &[7]), Some(Cause::Form));
    assert_eq!(cause(1, 29, &[3]), None);
    assert_eq!(cause(1, 29, &[4]), Some(Cause::Form));
    // tag and paint are unused bytes of the other kinds
    assert_eq!(cause(1, 28, &[1]), Some(Cause::Form));
    assert_eq!(cause(8, 29, &[1]), Some(Cause::Form));
}

#[test]
fn the_check_is_the_weighted_sum() {
    assert_eq!(check_of(&[255; BODY]), 255 * 508 * 509 / 2);
    let mut wrong = checked(&body(1, &[]));
    for other in [0, 2, 1 + (1 << 16)] {
        wrong[BODY..].copy_from_slice(&u32::to_le_bytes(other));
        assert_eq!(judge(&wrong), Err(Cause::Check));
    }
}

/// By 01's lists: which bytes besides kind, flags, priority and clip each kind uses.
fn used(kind: u8, paint: u8) -> Vec<usize> {
    let rect = 32..48;
    let radius = 48..52;
    let colour = 56..60;
    let source = 4..8;
    let fields = match (kind, paint) {
        (1, 0) => vec![rect, radius, colour, 29..30],
        (1, 1) => vec![rect, radius, colour, 29..30, 252..256, 256..264],
        (1, 2) => vec![rect, radius, colour, 29..30, 252..256, 256..272],
        (1, _) => vec![rect, radius, colour, 29..30, 252..256, 256..268],
        (2, _) => vec![rect, radius, 100..104, colour],
        (3, _) => vec![rect, radius, 52..56, colour],
        (4, _) => vec![rect, radius, 52..56, colour, 60..76, 104..236],
        (5, _) => vec![source, 8..16, radius, 76..84],
        (6, _) => vec![source, rect, radius, 84..88],
        (7, _) => vec![source, rect, 92..100, 88..92, 84..88],
        _ => vec![8..16, 16..28, 28..29],
    };
    fields.into_iter().flatten().collect()
}

#[test]
fn unused_bytes_are_zero() {
    for kind in 1..=8 {
        for paint in 0..if kind == 1 { 4 } else { 1 } {
            let used = used(kind, paint);
            for at in (4..236).chain(252..BODY).filter(|at| !used.contains(at)) {
                let bytes = body(kind, &[(29, &[paint]), (at, &[1])]);
                assert_eq!(judge_body(&bytes), Err(Cause::Form), "kind {kind} at {at}");
            }
            // the lowest bit of a used byte is never out of range but in the table, whose end is 0
            for at in used.into_iter().filter(|at| *at != 29) {
                let bytes = body(kind, &[(29, &[paint]), (at, &[1])]);
                let low = matches!(judge_body(&bytes), Ok(()) | Err(Cause::Integer));
                assert!(low, "kind {kind} at {at}");
            }
        }
    }
}

#[test]
fn flag_bits() {
    for kind in 1..=8 {
        for flags in 0..=255 {
            let known = match kind {
                3 => flags < 2,
                8 => flags < 4,
                _ => flags == 0,
            };
            let expected = (!known).then_some(Cause::Form);
            assert_eq!(cause(kind, 1, &[flags]), expected, "kind {kind} {flags}");
        }
    }
}

#[test]
fn floats_end_included() {
    let ranges: &[(u8, usize, f32, f32)] = &[
        (1, 32, -16384.0, 16384.0),
        (2, 36, -16384.0, 16384.0),
        (3, 40, 0.0, 16384.0),
        (6, 44, 0.0, 16384.0),
        (7, 92, -16384.0, 16384.0),
        (7, 96, -16384.0, 16384.0),
        (5, 48, 0.0, 8192.0),
        (4, 52, 0.0, 64.0),
        (3, 52, 0.0, 256.0),
        (4, 60, 0.0, 8.0),
        (4, 64, -1.0, 1.0),
        (4, 68, 0.0, 256.0),
        (2, 100, 0.0, 256.0),
        (4, 72, 0.0, 1.0),
        (6, 84, 0.0, 1.0),
        (7, 84, 0.0, 1.0),
        (7, 88, 0.0, 1.0),
    ];
    for (kind, at, lo, hi) in ranges.iter().copied() {
        for v in [lo, hi, -0.0, 0.0] {
            assert_eq!(float(kind, at, v), None, "kind {kind} at {at}: {v}");
        }
        let beyond = [lo.next_down(), hi.next_up(), f32::NAN, -f32::NAN];
        for v in beyond.into_iter().chain([f32::INFINITY, -f32::INFINITY]) {
            assert_eq!(float(kind, at, v), Some(Cause::Float), "{kind} {at}: {v}");
        }
    }
}

#[test]
fn paint_numbers() {
    for (paint, count) in [(1, 2), (2, 4), (3, 3)] {
        for i in 0..count {
            let least = if paint == 3 && i == 2 {
                0.0
            } else {
                -16384.0f32
            };
            let at = 256 + 4 * i;
            assert_eq!(fill(paint, at, least), None);
            assert_eq!(fill(paint, at, 16384.0), None);
            assert_eq!(fill(paint, at, least.next_down()), Some(Cause::Float));
            assert_eq!(fill(paint, at, 16384.0f32.next_up()), Some(Cause::Float));
        }
    }
    assert_eq!(fill(0, 256, f32::NAN), Some(Cause::Form));
    assert_eq!(fill(1, 264, f32::NAN), Some(Cause::Form));
}

#[test]
fn the_table_is_tested_where_bezel_exceeds_a_half() {
    let glass = |bezel: f32, entry: usize, v: f32| {
        let fields: [(usize, &[u8]); 2] = [
            (68, &bezel.to_le_bytes()),
            (104 + 4 * entry, &v.to_le_bytes()),
        ];
        judge_body(&body(4, &fields)).err()
    };
    let above = 0.5f32.next_up();
    for entry in 0..33 {
        assert_eq!(glass(0.5, entry, f32::NAN), None);
        assert_eq!(glass(-0.0, entry, -1.0), None);
        assert_eq!(glass(above, entry, f32::NAN), Some(Cause::Float));
        assert_eq!(glass(above, entry, 1024.0f32.next_up()), Some(Cause::Float));
        assert_eq!(glass(above, entry, -0.0), None);
        // of the range's end the last entry is refused here; the others only for their bezel
        let end = if entry == 32 {
            Cause::Float
        } else {
            Cause::Bend
        };
        assert_eq!(glass(above, entry, 1024.0), Some(end));
        assert_eq!(glass(0.5, entry, 1024.0), None);
    }
}

#[test]
fn integers_end_included() {
    let ranges: &[(u8, usize, i32, i32)] = &[
        (5, 8, -16384, 16384),
        (5, 12, -16384, 16384),
        (8, 8, 0, 16384),
        (8, 12, 0, 16384),
        (8, 16, 0, 4096),
        (8, 20, 0, 4096),
        (8, 24, 0, 4096),
        (5, 76, 0, 255),
        (5, 80, 0, 255),
    ];
    let clips = (1..=8).flat_map(|k| (236..252).step_by(4).map(move |at| (k, at, -16384, 16384)));
    for (kind, at, lo, hi) in ranges.iter().copied().chain(clips) {
        let cause = |v: i32| cause(kind, at, &v.to_le_bytes());
        for v in [lo, 0, hi] {
            assert_eq!(cause(v), None, "kind {kind} at {at}: {v}");
        }
        for v in [lo - 1, hi + 1, i32::MIN, i32::MAX] {
            assert_eq!(cause(v), Some(Cause::Integer), "kind {kind} at {at}: {v}");
        }
    }
    // a source number is any
    assert_eq!(cause(5, 4, &[255; 4]), None);
}

#[test]
fn tests_come_in_their_order() {
    // an unused NaN is cause 5, and of two faults the one with the lower number counts
    assert_eq!(float(2, 52, f32::NAN), Some(Cause::Form));
    let far: [(usize, &[u8]); 2] = [(48, &[255; 4]), (236, &[255, 255, 255, 127])];
    assert_eq!(judge_body(&body(1, &far)), Err(Cause::Float));
    assert_eq!(judge_body(&body(1, &far[1..])), Err(Cause::Integer));
}

/// A rundown of blocks with these priorities, with room for so many bytes.
fn rundown(priorities: &[u16], room: usize) -> Vec<u8> {
    let blocks = priorities.iter().map(|p| checked(&new(*p)));
    let mut bytes: Vec<u8> = blocks.flatten().collect();
    bytes.resize(room, 0xEE);
    bytes
}

fn new(priority: u16) -> Body {
    body(1, &[(2, &priority.to_le_bytes())])
}

/// Of a refusal: and nothing has changed.
fn refused(before: &[u8], work: impl Fn(&mut [u8]) -> Answer) -> Option<(Cause, usize)> {
    let mut after = before.to_vec();
    let answer = work(&mut after).err();
    assert!(answer.is_none() || after == before);
    answer
}

#[test]
fn count_and_length() {
    let full = rundown(&[1, 2, 3], 3 * BLOCK);
    for count in [4, 257, usize::MAX, 1 << 55] {
        let answer = refused(&full, |b| add(b, count, &new(9)));
        assert_eq!(answer, Some((Cause::Rundown, 0)));
        let answer = refused(&full, |b| remove(b, count, 1));
        assert_eq!(answer, Some((Cause::Rundown, 0)));
    }
}

#[test]
fn add_tests_in_its_order() {
    let room = rundown(&[1, 2, 0x102], 4 * BLOCK);
    assert_eq!(refused(&room, |b| add(b, 3, &new(9))), None);
    let at = |cause| Some((cause, 3));
    let twice = refused(&room, |b| add(b, 3, &new(2)));
    assert_eq!(twice, at(Cause::Priority));
    let unknown = body(9, &[(2, &[2])]);
    let wrong = refused(&room, |b| add(b, 3, &unknown));
    assert_eq!(wrong, at(Cause::Form));
    let short = &room[..4 * BLOCK - 1];
    let full = refused(short, |b| add(b, 3, &new(9)));
    assert_eq!(full, at(Cause::Room));
    let both = refused(short, |b| add(b, 3, &new(2)));
    assert_eq!(both, at(Cause::Priority));
}

#[test]
fn held_blocks_come_first() {
    let mut held = rundown(&[1, 1, 3], 4 * BLOCK);
    let unknown = body(9, &[]);
    let twice = Some((Cause::Priority, 1));
    assert_eq!(refused(&held, |b| add(b, 3, &unknown)), twice);
    assert_eq!(refused(&held, |b| remove(b, 3, 7)), twice);
    held[2 * BLOCK + BODY] ^= 1;
    let check = Some((Cause::Check, 2));
    assert_eq!(refused(&held, |b| add(b, 3, &unknown)), check);
    assert_eq!(refused(&held, |b| remove(b, 3, 1)), check);
}

#[test]
fn at_most_256_are_held() {
    let priorities: Vec<u16> = (0..MOST as u16).collect();
    let mut held = rundown(&priorities, 260 * BLOCK);
    let full = Some((Cause::Room, MOST));
    assert_eq!(refused(&held, |b| add(b, MOST, &new(999))), full);
    assert_eq!(remove(&mut held, MOST, 77), Ok(255));
    assert_eq!(remove(&mut held, 255, 77), Err((Cause::Absent, 0)));
    assert_eq!(add(&mut held, 255, &new(77)), Ok(256));
}

#[test]
fn adding_and_removing_keep_the_others() {
    let mut held = rundown(&[5, 6, 7], 4 * BLOCK);
    assert_eq!(remove(&mut held, 3, 6), Ok(2));
    assert_eq!(held[..2 * BLOCK], rundown(&[5, 7], 2 * BLOCK));
    assert_eq!(add(&mut held, 2, &new(8)), Ok(3));
    assert_eq!(held[..3 * BLOCK], rundown(&[5, 7, 8], 3 * BLOCK));
    assert_eq!(remove(&mut [], 0, 0), Err((Cause::Absent, 0)));
}
