//! Adding, removing, and the bytes of a rundown.
mod common;

use common::{copy, patched};
use std::panic::{catch_unwind, AssertUnwindSafe};
use tiglostrema::{
    Cause, Color, Fill, Frame, Genie, Glass, IRect, Kind, Layer, Paint, Point, Rect, Refusal,
    Rundown, ScaledCopy, SecurityTag, Shadow, StraightCopy, Stroke, MAX_LAYERS,
};

const RECT: Rect = Rect::new(-3.5, 12.25, 640.0, 90.5);
const INK: Color = Color::rgba(1, 2, 3, 4);
const OTHER: Color = Color::rgba(250, 251, 252, 253);

/// A layer of each kind, and of each paint, with no two fields alike.
fn layers() -> Vec<Layer> {
    let clip = IRect::new(-7, 8, 900, 1000);
    let (p0, p1) = (Point::new(1.5, -2.5), Point::new(3.5, 4.5));
    let (c0, c1) = (INK, OTHER);
    let bent: [f32; 33] = std::array::from_fn(|i| (32 - i) as f32 / 3.0);
    vec![
        Fill::new(RECT, INK)
            .with_radius(11.0)
            .with_clip(clip)
            .into(),
        Fill::new(
            RECT,
            Paint::VGrad {
                y0: 5.5,
                y1: -6.5,
                c0,
                c1,
            },
        )
        .into(),
        Fill::new(RECT, Paint::Linear { p0, p1, c0, c1 }).into(),
        Fill::new(
            RECT,
            Paint::Radial {
                c: p1,
                r: 77.0,
                c0,
                c1,
            },
        )
        .with_clip(clip)
        .into(),
        Stroke::new(RECT, 2.75, OTHER)
            .with_radius(9.0)
            .with_clip(clip)
            .into(),
        Shadow::new(RECT, 200.0, INK)
            .with_radius(8.0)
            .with_clip(clip)
            .into(),
        Shadow::new(RECT, 30.0, INK).with_skip_inside(true).into(),
        Glass::new(RECT, 60.0)
            .with_radius(7.0)
            .with_tint(OTHER)
            .with_saturation(1.75)
            .with_brightness(-0.25)
            .with_bezel(14.0, bent)
            .with_spec(0.75)
            .with_clip(clip)
            .into(),
        StraightCopy::new(3, -40, 50)
            .with_radius(6.0)
            .with_alpha(200)
            .with_dim(17)
            .with_clip(clip)
            .into(),
        ScaledCopy::new(4, RECT)
            .with_radius(5.0)
            .with_alpha(0.5)
            .with_clip(clip)
            .into(),
        Genie::new(5, RECT, p0, 0.25)
            .with_alpha(0.75)
            .with_clip(clip)
            .into(),
        Frame::new(60, 70, 80, 90, SecurityTag::MagentaDisposable)
            .with_border(5)
            .into(),
        Frame::new(0, 1, 2, 3, SecurityTag::ObsidianAdmin)
            .with_tint(true)
            .into(),
        Frame::new(0, 1, 2, 3, SecurityTag::PurpleVault)
            .with_xray(true)
            .into(),
    ]
}

/// The layers at descending priorities, so that the last one's block comes first.
fn whole() -> Rundown {
    let mut rundown = Rundown::new();
    for (layer, priority) in layers().into_iter().zip((0..100).rev()) {
        rundown.add(priority, layer).expect("in range");
    }
    rundown
}

#[test]
fn layers_come_back_as_they_went_in() {
    let rundown = whole();
    assert_eq!(rundown.len(), layers().len());
    for (layer, priority) in layers().into_iter().zip((0..100).rev()) {
        assert_eq!(rundown.get(priority), Some(layer));
    }
    assert_eq!(rundown.iter().len(), rundown.len());
    assert_eq!((&rundown).into_iter().count(), rundown.len());
    let mut played: Vec<Layer> = rundown.in_playing_order().map(|(_, layer)| layer).collect();
    played.reverse();
    assert_eq!(played, layers());
}

#[test]
fn every_kind_is_there_under_its_number() {
    let rundown = whole();
    for (block, (_, layer)) in rundown.as_bytes().chunks(512).zip(&rundown) {
        assert_eq!(block[0], layer.kind().number());
    }
    let mut kinds: Vec<u8> = rundown
        .iter()
        .map(|(_, layer)| layer.kind().number())
        .collect();
    kinds.dedup();
    assert_eq!(kinds, [8, 7, 6, 5, 4, 3, 2, 1]);
    assert_eq!(Kind::Straight.to_string(), "straight copy");
}

#[test]
fn bytes_make_the_rundown_again() {
    let rundown = whole();
    assert_eq!(Rundown::from_bytes(rundown.as_bytes()), Ok(rundown));
    assert_eq!(Rundown::from_bytes(&[]), Ok(Rundown::new()));
    assert_eq!(common::copy(3), {
        let clip = IRect::new(0, 0, 64, 64);
        common::block(3, StraightCopy::new(0, 0, 0).with_clip(clip))
    });
}

#[test]
fn wrong_bytes_make_none() {
    let cause = |bytes: &[u8]| Rundown::from_bytes(bytes).map_err(|refusal| refusal.cause());
    assert_eq!(cause(&[0; 513]), Err(Cause::RundownLength));
    assert_eq!(cause(&vec![0; 257 * 512]), Err(Cause::RundownLength));
    assert_eq!(cause(&vec![0; 70_000 * 512]), Err(Cause::RundownLength));
    assert_eq!(cause(&[1; 512]), Err(Cause::Check));
    assert_eq!(cause(&[0; 512]), Err(Cause::Form));
    assert_eq!(cause(&patched(copy(0), 1, &[4])), Err(Cause::Form));
    assert_eq!(
        cause(&patched(copy(0), 48, &(-1f32).to_le_bytes())),
        Err(Cause::FloatRange)
    );
    assert_eq!(
        cause(&patched(copy(0), 76, &256u32.to_le_bytes())),
        Err(Cause::IntegerRange)
    );
    assert_eq!(
        cause(&[copy(6), copy(6)].concat()),
        Err(Cause::DuplicatePriority)
    );
}

#[test]
fn a_layer_of_each_kind_is_removed_and_added_again() {
    for (priority, layer) in &whole() {
        let mut rundown = whole();
        assert_eq!(rundown.remove(priority), Ok(layers().len() - 1));
        assert_eq!(rundown.add(priority, layer), Ok(layers().len()));
        assert_eq!(rundown, whole());
    }
}

#[test]
fn a_refused_add_or_remove_changes_nothing() {
    let mut rundown = whole();
    let cause = |added: Result<usize, Refusal>| added.map_err(|refusal| refusal.cause());
    let taken = rundown
        .add(99, StraightCopy::new(0, 0, 0))
        .expect_err("taken");
    assert_eq!(
        (taken.cause(), taken.block()),
        (Cause::DuplicatePriority, Some(layers().len()))
    );
    assert_eq!(
        cause(rundown.add(1, StraightCopy::new(0, 16385, 0))),
        Err(Cause::IntegerRange)
    );
    assert_eq!(
        cause(rundown.add(1, Stroke::new(RECT, f32::NAN, INK))),
        Err(Cause::FloatRange)
    );
    assert_eq!(cause(rundown.remove(1)), Err(Cause::NoSuchPriority));
    let wide = rundown.replace(99, Stroke::new(RECT, 257.0, INK));
    assert_eq!(cause(wide.map(|()| 0)), Err(Cause::FloatRange));
    assert_eq!(rundown, whole());
}

#[test]
fn it_holds_256_layers_and_no_more() {
    let mut rundown = Rundown::new();
    for priority in 0..MAX_LAYERS as u16 {
        rundown
            .add(priority, StraightCopy::new(0, 0, 0))
            .expect("room");
    }
    let full = rundown.clone();
    let refusal = rundown
        .add(300, StraightCopy::new(0, 0, 0))
        .expect_err("full");
    assert_eq!(
        (refusal.cause(), refusal.beside()),
        (Cause::RundownFull, 256)
    );
    assert_eq!(rundown, full);
    assert_eq!(Rundown::from_bytes(full.as_bytes()), Ok(full));
    assert_eq!(rundown.remove(17), Ok(255));
    assert_eq!(rundown.add(300, StraightCopy::new(0, 0, 0)), Ok(256));
}

/// A layer of the caller's own that fails as it becomes one.
struct Broken;

impl From<Broken> for Layer {
    fn from(_: Broken) -> Layer {
        panic!("no layer")
    }
}

/// Whether a call that panics leaves the rundown's bytes as they were.
fn leaves(call: impl FnOnce(&mut Rundown) -> Result<(), Refusal>) -> bool {
    let mut rundown = whole();
    catch_unwind(AssertUnwindSafe(|| call(&mut rundown))).expect_err("a panic");
    rundown.as_bytes() == whole().as_bytes()
}

#[test]
fn a_panic_in_the_callers_code_changes_nothing() {
    assert!(leaves(|rundown| rundown.add(1, Broken).map(|_| ())));
    assert!(leaves(|rundown| rundown.replace(99, Broken)));
    let half = |layer: &mut Layer| {
        *layer = StraightCopy::new(0, 0, 0).into();
        panic!("no change")
    };
    assert!(leaves(|rundown| rundown.update(99, half)));
}

#[test]
fn a_replaced_layer_stands_in_its_place() {
    let mut rundown = whole();
    let other = Layer::from(Stroke::new(RECT, 1.5, INK));
    for (number, (priority, layer)) in whole().iter().enumerate() {
        rundown.replace(priority, other).expect("in range");
        assert_eq!(rundown.iter().nth(number), Some((priority, other)));
        assert_eq!(Rundown::from_bytes(rundown.as_bytes()), Ok(rundown.clone()));
        rundown.replace(priority, layer).expect("as it was");
        assert_eq!(rundown, whole());
    }
}

#[test]
fn an_updated_layer_keeps_what_is_not_changed() {
    let mut rundown = whole();
    let priorities: Vec<u16> = rundown.iter().map(|(priority, _)| priority).collect();
    for priority in priorities {
        rundown.update(priority, |_| {}).expect("as it was");
    }
    assert_eq!(rundown, whole());
    // The ninth layer is a straight copy.
    let before = layers()[8];
    let moved = rundown.update(91, |layer| match layer {
        Layer::Straight(copy) => copy.x += 8,
        other => panic!("{other:?}"),
    });
    assert_eq!(moved, Ok(()));
    assert_ne!(rundown.get(91), Some(before));
    let back = |layer: &mut Layer| {
        if let Layer::Straight(copy) = layer {
            copy.x -= 8;
        }
    };
    assert_eq!(rundown.update(91, back), Ok(()));
    assert_eq!(rundown, whole());
}

#[test]
fn a_refused_update_changes_nothing() {
    let mut rundown = whole();
    let far = |layer: &mut Layer| *layer = StraightCopy::new(0, 16385, 0).into();
    let refusal = rundown.update(91, far).expect_err("out of range");
    assert_eq!(
        refusal.to_string(),
        "block 5, priority 91: `x` is out of its range (cause 7)"
    );
    assert_eq!(
        rundown
            .replace(91, Stroke::new(RECT, 257.0, INK))
            .map_err(|r| r.block()),
        Err(Some(5))
    );
    let absent = rundown.update(1, |_| panic!("there is no such layer"));
    assert_eq!(
        absent.map_err(|refusal| refusal.cause()),
        Err(Cause::NoSuchPriority)
    );
    assert_eq!(rundown, whole());
}

#[test]
fn a_refusal_says_the_layer_s_priority() {
    let fill = Fill::new(Rect::default(), Color::WHITE);
    let wrong = Fill::new(Rect::default(), Color::WHITE).with_radius(-1.0);
    let mut rundown = Rundown::new();
    rundown.add(40, fill).expect("in range");
    let range = "`radius` is not finite or out of its range (cause 6)";
    let refused: [(Result<(), Refusal>, u16, String); 6] = [
        (
            rundown.add(50, wrong).map(drop),
            50,
            format!("block 1, priority 50: {range}"),
        ),
        (
            rundown.add(40, fill).map(drop),
            40,
            "block 1, priority 40: an earlier block has the same priority (cause 8)".into(),
        ),
        (
            rundown.replace(40, wrong),
            40,
            format!("block 0, priority 40: {range}"),
        ),
        (
            rundown.remove(7).map(drop),
            7,
            "priority 7: no layer has that priority (cause 13)".into(),
        ),
        (
            rundown.replace(7, fill),
            7,
            "priority 7: no layer has that priority (cause 13)".into(),
        ),
        (
            rundown.update(7, |_| {}),
            7,
            "priority 7: no layer has that priority (cause 13)".into(),
        ),
    ];
    for (answer, priority, words) in refused {
        let refusal = answer.expect_err("refused");
        assert_eq!(refusal.priority(), Some(priority));
        assert_eq!(refusal.to_string(), words);
    }
    let damaged = Rundown::from_bytes(&[0; 512]).expect_err("no kind");
    assert_eq!((damaged.block(), damaged.priority()), (Some(0), None));
}
