//! Every cause: its number, its words, and that a refused call changes nothing.
mod common;

use common::{bent, block, copy, patched, Lent};
use tiglostrema::raw::{self, BLOCK_LEN, BODY_LEN};
use tiglostrema::{Cause, Frame, Glass, Rect, Refusal, SecurityTag};

impl Lent {
    /// Plays it, and shows that it is refused, that a begin and every step are refused alike, and that
    /// nothing has changed.
    fn refused(mut self) -> Refusal {
        let before = self.clone();
        let refusal = self.play().expect_err("refused");
        assert_eq!(self.begin(), Err(refusal));
        for last in [None, Some(0), Some(4), Some(u16::MAX)] {
            assert_eq!(self.step(last), Err(refusal), "{last:?}");
        }
        assert_eq!(self, before);
        refusal
    }
}

fn says(refusal: Refusal, cause: Cause, block: Option<usize>, words: &str) {
    assert_eq!((refusal.cause(), refusal.block()), (cause, block));
    assert_eq!(refusal.to_string(), words);
    assert_eq!(Cause::from_number(cause.number()), cause);
}

#[test]
fn accepted() {
    let mut lent = Lent::new(copy(3));
    assert_eq!(lent.play(), Ok(1));
    assert_eq!(lent.canvas[..3], [0x112233, 0x445566, 0xAB00_0002]);
}

#[test]
fn one_canvas() {
    let words = "the canvas has a side outside 1 to 4096, or not width × height pixels (cause 1)";
    for (width, height) in [(0, 2), (4, 0), (4, 3), (4097, 1), (u32::MAX, u32::MAX)] {
        let mut lent = Lent::new(copy(3));
        (lent.width, lent.height) = (width, height);
        says(lent.refused(), Cause::CanvasSize, None, words);
    }
}

#[test]
fn two_sources() {
    let words = "there are more than 16 sources, one has a side outside 1 to 4096, \
                 or the pool is not as long as their sizes say (cause 2)";
    for table in [vec![2], vec![2, 2], vec![0, 1], vec![1; 34]] {
        let mut lent = Lent::new(copy(3));
        lent.table = table;
        says(lent.refused(), Cause::SourceTable, None, words);
    }
}

#[test]
fn three_rundown() {
    let words =
        "the rundown is no whole number of blocks of 512 bytes, or has more than 256 (cause 3)";
    for len in [1, BLOCK_LEN - 1, 257 * BLOCK_LEN] {
        let lent = Lent::new(vec![0; len]);
        says(lent.refused(), Cause::RundownLength, None, words);
    }
}

#[test]
fn four_check() {
    let mut rundown = [copy(3), copy(4)].concat();
    rundown[2 * BLOCK_LEN - 1] ^= 1;
    says(
        Lent::new(rundown).refused(),
        Cause::Check,
        Some(1),
        "block 1: the check at the block's end is wrong (cause 4)",
    );
}

#[test]
fn five_form() {
    let words =
        "block 0: the kind, tag or paint is unknown, or an unused byte or flag is set (cause 5)";
    let frame = block(3, Frame::new(0, 0, 4, 2, SecurityTag::AmberUsb));
    let wrong = [
        patched(copy(3), 0, &[9]),
        patched(copy(3), 1, &[1]),
        patched(copy(3), 300, &[1]),
        patched(frame, 28, &[7]),
    ];
    for rundown in wrong {
        says(Lent::new(rundown).refused(), Cause::Form, Some(0), words);
    }
}

#[test]
fn six_float() {
    let rundown = [
        copy(1),
        copy(2),
        copy(3),
        patched(copy(4), 48, &f32::NAN.to_le_bytes()),
    ];
    says(
        Lent::new(rundown.concat()).refused(),
        Cause::FloatRange,
        Some(3),
        "block 3: a float is not finite or out of range (cause 6)",
    );
}

#[test]
fn seven_integer() {
    let rundown = patched(copy(4), 8, &16385i32.to_le_bytes());
    says(
        Lent::new(rundown).refused(),
        Cause::IntegerRange,
        Some(0),
        "block 0: an integer is out of range (cause 7)",
    );
}

#[test]
fn eight_priority() {
    let rundown = [copy(4), copy(7), copy(4)].concat();
    says(
        Lent::new(rundown).refused(),
        Cause::DuplicatePriority,
        Some(2),
        "block 2: an earlier block has the same priority (cause 8)",
    );
}

#[test]
fn nine_source() {
    let rundown = patched(copy(4), 4, &1u32.to_le_bytes());
    says(
        Lent::new(rundown).refused(),
        Cause::NoSuchSource,
        Some(0),
        "block 0: there is no source of that number (cause 9)",
    );
}

#[test]
fn ten_frame() {
    let rundown = block(4, Frame::new(1, 0, 4, 2, SecurityTag::BlueWork));
    says(
        Lent::new(rundown).refused(),
        Cause::FrameTooWide,
        Some(0),
        "block 0: the frame ends beyond the canvas's width (cause 10)",
    );
}

#[test]
fn eleven_scratch() {
    let panel = block(9, Glass::new(Rect::new(0.0, 0.0, 4.0, 2.0), 1.0));
    let rundown = [copy(4), panel].concat();
    assert_eq!(Lent::new(rundown.clone()).play(), Ok(2));
    for short in [
        |lent: &mut Lent| lent.a.truncate(23),
        |lent: &mut Lent| lent.b.truncate(23),
    ] {
        let mut lent = Lent::new(rundown.clone());
        short(&mut lent);
        says(
            lent.refused(),
            Cause::ScratchTooShort,
            Some(1),
            "block 1: the scratch is too short for this glass panel (cause 11)",
        );
    }
}

#[test]
fn twelve_full() {
    let body: [u8; BODY_LEN] = copy(5)[..BODY_LEN].try_into().expect("508 bytes");
    let mut buffer = copy(4);
    let before = buffer.clone();
    let refusal = raw::add(&mut buffer, 1, &body).expect_err("no room");
    let words = "there is no room for another layer, 1 are held (cause 12)";
    says(refusal, Cause::RundownFull, None, words);
    assert_eq!((refusal.beside(), buffer), (1, before));
}

#[test]
fn thirteen_absent() {
    let mut buffer = copy(4);
    let before = buffer.clone();
    let refusal = raw::remove(&mut buffer, 1, 5).expect_err("absent");
    says(
        refusal,
        Cause::NoSuchPriority,
        None,
        "no layer has that priority (cause 13)",
    );
    assert_eq!(buffer, before);
}

#[test]
fn fourteen_box_pass() {
    let words = "the box pass has a side outside 1 to 4096, a window wider than 65536, \
                 or a slice that is not 3 × width × height bytes (cause 14)";
    for pass in [raw::box_h, raw::box_v] {
        for (width, height, r) in [(0, 1, 1), (1, 4097, 1), (2, 1, 32768), (1, 1, 1), (2, 2, 1)] {
            let mut dst = [7; 6];
            let refusal = pass(&[1; 6], &mut dst, width, height, r).expect_err("refused");
            says(refusal, Cause::BoxPass, None, words);
            assert_eq!(dst, [7; 6]);
        }
    }
}

#[test]
fn fifteen_bend() {
    let rundown = [copy(1), bent(2, 0x4140_0000, 0, 0x4199_999B)].concat();
    says(
        Lent::new(rundown).refused(),
        Cause::Bend,
        Some(1),
        "block 1: an entry of the displacement table is above 1.6 × bezel (cause 15)",
    );
}

#[test]
fn sixteen_next() {
    let words = "no layer is above the last painted priority (cause 16)";
    let mut lent = Lent::new([copy(4), copy(3)].concat());
    let before = lent.clone();
    for last in [4, 5, u16::MAX] {
        let refusal = lent.step(Some(last)).expect_err("none is left");
        says(refusal, Cause::NoNextLayer, None, words);
        assert_eq!(refusal.beside(), 0);
    }
    assert_eq!(lent, before);
    let refusal = Lent::new(Vec::new()).step(None).expect_err("no layer");
    says(refusal, Cause::NoNextLayer, None, words);
}

#[test]
fn a_number_of_a_later_library_is_kept() {
    assert_eq!(Cause::from_number(99), Cause::Other(99));
    assert_eq!(Cause::Other(99).number(), 99);
    let numbers: Vec<u32> = Cause::ALL.iter().map(|cause| cause.number()).collect();
    assert_eq!(numbers, (1..=16).collect::<Vec<_>>());
}

#[test]
fn earlier_tests_speak_first() {
    let mut lent = Lent::new(patched(copy(3), 0, &[9]));
    lent.rundown.push(0);
    lent.table = vec![3, 1];
    lent.width = 5;
    assert_eq!(lent.clone().refused().cause(), Cause::CanvasSize);
    lent.width = 4;
    assert_eq!(lent.clone().refused().cause(), Cause::SourceTable);
    lent.table = vec![2, 1];
    assert_eq!(lent.clone().refused().cause(), Cause::RundownLength);
    lent.rundown.pop();
    assert_eq!(lent.refused().cause(), Cause::Form);
}
