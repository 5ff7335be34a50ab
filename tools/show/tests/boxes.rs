//! The boxes that are worked out here are the library's: for random rundowns that it takes, of every kind.
mod common;

use common::blocks::{body, shaken, Draw};
use common::Dice;
use show::boxes::{self, worked_out, Sizes};
use tiglostrema::raw::{self, BLOCK_LEN, BODY_LEN};
use tiglostrema::{Forecast, IRect, Rundown};

/// How many rundowns of how many blocks are tried.
const RUNDOWNS: usize = 1000;
const BLOCKS: usize = 32;

/// Canvases and sources of all sizes, the smallest and the largest among them.
fn side(dice: &mut Dice) -> u32 {
    match dice.below(6) {
        0 => 1,
        1 => 4096,
        2 => 1 + dice.below(8) as u32,
        _ => 1 + dice.below(4096) as u32,
    }
}

/// A block of a kind that suits the canvas and the sources. The fields of a random one lie mostly far from the canvas;
/// of most blocks here they are moved to it.
fn suited(dice: &mut Dice, kind: u8, priority: u16, canvas: (u32, u32), sources: u32) -> Vec<u8> {
    let plain = body(dice, kind, priority);
    let mut block = shaken(dice, plain);
    if dice.below(8) > 0 {
        put(&mut block, 236, &clip(dice, canvas).map(|n| n as u32));
    }
    if dice.below(8) > 0 {
        match kind {
            5 => {
                let at = [canvas.0, canvas.1].map(|side| near(dice, side) as u32);
                put(&mut block, 8, &at);
            }
            8 => {}
            _ => {
                let rect = rect(dice, canvas).map(f32::to_bits);
                put(&mut block, 32, &rect);
            }
        }
    }
    match kind {
        5..=7 => put(&mut block, 4, &[dice.below(u64::from(sources)) as u32]),
        8 => {
            let x = dice.below(u64::from(canvas.0) + 1) as u32;
            let width = dice.below(u64::from(canvas.0 - x) + 1) as u32;
            put(&mut block, 8, &[x]);
            put(&mut block, 16, &[width]);
        }
        _ => {}
    }
    block.to_vec()
}

fn put(block: &mut [u8; BODY_LEN], at: usize, words: &[u32]) {
    for (i, word) in words.iter().enumerate() {
        block[at + 4 * i..][..4].copy_from_slice(&word.to_le_bytes());
    }
}

/// A column or row on the canvas, or a little beyond it.
fn near(dice: &mut Dice, side: u32) -> i32 {
    dice.below(u64::from(side) + 40) as i32 - 20
}

/// A clip that keeps much, ends on the canvas, or keeps nothing.
fn clip(dice: &mut Dice, (width, height): (u32, u32)) -> [i32; 4] {
    match dice.below(3) {
        0 => [-16384, -16384, 16384, 16384],
        1 => [-3, -3, near(dice, width), near(dice, height)],
        _ => [width, height, width, height].map(|side| near(dice, side)),
    }
}

/// A rectangle about the canvas: between pixels, on them, and narrower than a pixel.
fn rect(dice: &mut Dice, (width, height): (u32, u32)) -> [f32; 4] {
    let part = |dice: &mut Dice| match dice.below(3) {
        0 => 0.0,
        _ => dice.float(0.0, 1.0),
    };
    let [x, y] = [width, height].map(|side| near(dice, side) as f32 + part(dice));
    let size = |dice: &mut Dice, side: u32| match dice.below(4) {
        0 => dice.float(0.0, 3.0),
        _ => dice.below(u64::from(side) + 1) as f32 + part(dice),
    };
    [x, y, size(dice, width), size(dice, height)]
}

/// How many boxes were met, by kind: those that are empty and the others.
#[derive(Default)]
struct Met {
    empty: [usize; 9],
    other: [usize; 9],
}

impl Met {
    fn count(&mut self, kind: u8, area: Option<IRect>) {
        match area {
            None => self.empty[usize::from(kind)] += 1,
            Some(_) => self.other[usize::from(kind)] += 1,
        }
    }
}

fn rundown(dice: &mut Dice, canvas: (u32, u32), sources: u32) -> Rundown {
    let mut bytes = vec![0; BLOCKS * BLOCK_LEN];
    for count in 0..BLOCKS {
        let kind = 1 + dice.below(8) as u8;
        let block = suited(dice, kind, count as u16, canvas, sources);
        let block = block.try_into().expect("a block without its check");
        assert_eq!(raw::add(&mut bytes, count, &block), Ok(count + 1));
    }
    Rundown::from_bytes(&bytes).expect("a rundown")
}

fn compare(rundown: &Rundown, canvas: (u32, u32), sources: &[(u32, u32)], met: &mut Met) {
    let table: Vec<u32> = sources.iter().flat_map(|&(w, h)| [w, h]).collect();
    let forecast = Forecast::of_bytes(rundown.as_bytes(), canvas.0, canvas.1, &table);
    let forecast = forecast.expect("accepted");
    let whole = IRect::new(0, 0, canvas.0 as i32, canvas.1 as i32);
    let canvas = Some(canvas);
    let (on, off) = (
        Sizes { canvas, sources },
        Sizes {
            canvas: None,
            sources,
        },
    );
    let all = boxes::of(rundown, &on);
    for (((_, layer), area), shown) in rundown.iter().zip(forecast.boxes()).zip(all) {
        let own = worked_out(&layer, &on).filter(|own| !own.is_empty());
        assert_eq!(own, *area, "{layer:?} on {canvas:?}");
        assert_eq!(shown.filter(|shown| !shown.is_empty()), *area);
        // Without a canvas it is the same, as far as it lies on this one.
        let wide = worked_out(&layer, &off).map(|wide| wide.intersect(&whole));
        assert_eq!(wide.filter(|wide| !wide.is_empty()), *area, "{layer:?}");
        met.count(layer.kind().number(), *area);
    }
}

#[test]
fn random_layers() {
    let (mut dice, mut met) = (Dice(15), Met::default());
    for _ in 0..RUNDOWNS {
        let canvas = (side(&mut dice), side(&mut dice));
        let sources: Vec<_> = (0..1 + dice.below(16))
            .map(|_| (side(&mut dice), side(&mut dice)))
            .collect();
        let rundown = rundown(&mut dice, canvas, sources.len() as u32);
        compare(&rundown, canvas, &sources, &mut met);
    }
    let (empty, other) = (met.empty, met.other);
    assert_eq!(empty.iter().chain(&other).sum::<usize>(), 32_000);
    assert!(empty[1..].iter().all(|n| *n > 400), "{empty:?}");
    assert!(other[1..].iter().all(|n| *n > 400), "{other:?}");
}

#[test]
fn what_the_library_refuses_is_worked_out() {
    let made = show::make("layer 1 frame; rect 5 0 9 9; tag usb\nlayer 2 copy; source 1; at 2 3");
    let rundown = made.expect("a right text").rundown;
    let words = |canvas, sources| {
        let boxes = boxes::of(&rundown, &Sizes { canvas, sources });
        boxes.into_iter().map(boxes::show).collect::<Vec<_>>()
    };
    let sources = [(1, 1), (4, 4)];
    assert_eq!(words(Some((14, 9)), &sources), ["5,0 9x9", "2,3 4x4"]);
    // The frame is too wide, the source is not given, the canvas is none, or is not given.
    assert_eq!(words(Some((13, 5)), &sources), ["5,0 8x5", "2,3 4x2"]);
    assert_eq!(words(Some((14, 9)), &sources[..1]), ["5,0 9x9", "?"]);
    assert_eq!(words(Some((0, 9)), &sources), ["empty", "empty"]);
    assert_eq!(words(None, &sources), ["5,0 9x9", "2,3 4x4"]);
}
