//! ms a play of whole rundowns at 1920 × 1080, beside the Rust's calls in the same order. There is no
//! kash-ui for the tests: of a play that paints nothing, the Rust is the reading in `compare/reading`. kash-ui's
//! straight copies have sources without top bytes, made before the clock runs, so that both sides paint the same.
use crate::clock::{head, least_of, line, Goal};
use crate::leaves::Random;
use crate::sides::{canvas, HEIGHT, ROUNDS, WIDTH};
use common::layers::kash::{paint, Sources};
use common::layers::write::block;
use kash::gfx::Canvas;
use kash::glass::GlassScratch;
use ours::surface::{self, Show};
use reading::{Glass, Kind, Layer, Paint, MOST};
use std::hint::black_box;

/// ns of a ms.
pub const MS: usize = 1_000_000;

/// The programme, the interpreter and a guest.
const SIZES: [[u32; 2]; 3] = [[WIDTH as u32, HEIGHT as u32], [480, 420], [640, 360]];

pub fn table() {
    head("ms");
    show();
    let rising: Vec<u16> = (0..MOST as u16).collect();
    idle("256 layers, empty boxes", &rising);
    let falling: Vec<u16> = rising.iter().rev().copied().collect();
    idle("256 layers, empty boxes, the highest first", &falling);
    idle("256 layers, empty boxes, in no order", &shuffled(rising));
}

/// kash-ui's painters behind one call, like the archive's.
#[inline(never)]
fn paint_all(onto: &mut Canvas, layers: &[Layer], sources: &Sources, scratch: &mut GlassScratch) {
    for layer in layers {
        paint(onto, layer, sources, scratch);
    }
}

#[inline(never)]
fn answer(show: &reading::Show) -> reading::Answer {
    show.answer()
}

fn sources() -> Vec<Canvas> {
    let of = |(i, [w, h]): (usize, [u32; 2])| canvas(i as u64 + 20, w as usize, h as usize);
    SIZES.into_iter().enumerate().map(of).collect()
}

/// A rundown and the pool that it is played from.
pub struct Lent {
    rundown: Vec<u8>,
    pool: Vec<u32>,
}

impl Lent {
    /// A twelve-layer show of all eight kinds, the highest first.
    pub fn twelve() -> Lent {
        let pixels = |source: Canvas| source.px;
        Lent {
            rundown: layers().iter().rev().flat_map(block).collect(),
            pool: sources().into_iter().flat_map(pixels).collect(),
        }
    }

    /// Layers of these priorities, of which none has a box.
    pub fn idle(priorities: &[u16]) -> Lent {
        Lent {
            rundown: idle_layers(priorities).iter().flat_map(block).collect(),
            pool: vec![0; SIZES.iter().map(|[w, h]| (w * h) as usize).sum()],
        }
    }

    pub fn show(&self) -> Show<'_> {
        Show {
            rundown: &self.rundown,
            width: WIDTH as u32,
            height: HEIGHT as u32,
            table: SIZES.as_flattened(),
            pool: &self.pool,
        }
    }

    /// The same as the reading takes it, without scratch.
    pub fn read(&self) -> reading::Show<'_> {
        reading::Show {
            rundown: &self.rundown,
            width: WIDTH as u32,
            height: HEIGHT as u32,
            canvas: WIDTH * HEIGHT,
            table: SIZES.as_flattened(),
            pool: self.pool.len(),
            scratch: [0, 0],
        }
    }
}

/// The twelve-layer show.
fn show() {
    let (lent, layers) = (Lent::twelve(), black_box(layers()));
    let sources = Sources::of(sources());
    let mut theirs = canvas(3, WIDTH, HEIGHT);
    let mut ours = theirs.px.clone();
    let [mut a, mut b] = [0, 1].map(|_| vec![0; 3 * WIDTH * HEIGHT]);
    let mut scratch = GlassScratch::default();
    let times = least_of(
        ROUNDS,
        MS,
        || assert_eq!(surface::play(lent.show(), &mut ours, &mut a, &mut b), 12),
        || paint_all(&mut theirs, &layers, &sources, &mut scratch),
    );
    // each began with what the one before left
    assert!(ours == theirs.px, "the two sides paint different shows");
    line("play", "twelve layers, all kinds", times, Goal::Ratio(0.45));
}

/// The same numbers, any at any place.
pub fn shuffled(mut numbers: Vec<u16>) -> Vec<u16> {
    let mut random = Random(4);
    for i in (1..numbers.len()).rev() {
        numbers.swap(i, random.word() as usize % (i + 1));
    }
    numbers
}

/// What play does besides painting: layers of these priorities, of which none has a box.
fn idle(what: &str, priorities: &[u16]) {
    let lent = Lent::idle(priorities);
    let (show, read) = (lent.show(), lent.read());
    let mut canvas = vec![0; WIDTH * HEIGHT];
    let times = least_of(
        ROUNDS,
        MS,
        || assert_eq!(surface::play(show, &mut canvas, &mut [], &mut []), 256),
        || assert_eq!(answer(black_box(&read)), Ok(MOST)),
    );
    line("play", what, times, Goal::Ratio(3.0));
}

fn rounded(rect: [f32; 4], radius: f32, paint: Paint) -> Kind {
    Kind::Fill {
        rect,
        radius,
        paint,
    }
}

fn panel(rect: [f32; 4], [radius, bezel]: [f32; 2], blur: f32) -> Kind {
    Kind::Glass(Box::new(Glass {
        rect,
        radius,
        blur,
        tint: [250, 250, 253, 60],
        saturation: 1.5,
        brightness: 0.05,
        bezel,
        spec: 0.0,
        table: std::array::from_fn(|i| 16.0 - 0.5 * i as f32),
    }))
}

/// From the lowest to the highest.
fn layers() -> Vec<Layer> {
    let colors = [[200, 40, 30, 220], [20, 60, 180, 255]];
    let interpreter = [1380.0, 520.0, 480.0, 420.0];
    let kinds = [
        Kind::Straight {
            source: 0,
            at: [0, 0],
            radius: 0.0,
            alpha: 255,
            dim: 0,
        },
        Kind::Shadow {
            rect: interpreter,
            radius: 24.0,
            blur: 40.0,
            color: [0, 0, 0, 160],
            skip_inside: true,
        },
        Kind::Straight {
            source: 1,
            at: [1380, 520],
            radius: 24.0,
            alpha: 255,
            dim: 0,
        },
        Kind::Stroke {
            rect: interpreter,
            radius: 24.0,
            width: 3.0,
            color: [255, 255, 255, 200],
        },
        rounded(
            [80.0, 800.0, 1200.0, 140.0],
            16.0,
            Paint::VGrad([800.0, 940.0], colors),
        ),
        rounded(
            [80.0, 60.0, 300.0, 120.0],
            12.5,
            Paint::Linear([80.0, 60.0, 380.0, 180.0], colors),
        ),
        rounded(
            [1700.0, 40.0, 160.0, 160.0],
            80.0,
            Paint::Radial([1780.0, 120.0, 80.0], colors),
        ),
        Kind::Scaled {
            source: 2,
            rect: [420.0, 60.0, 800.0, 450.0],
            radius: 18.0,
            alpha: 1.0,
        },
        Kind::Genie {
            source: 2,
            rect: [80.0, 240.0, 640.0, 360.0],
            target: [960.0, 1060.0],
            t: 0.4,
            alpha: 0.9,
        },
        panel([1240.0, 60.0, 420.0, 300.0], [24.0, 20.0], 12.0),
        // the ticker
        panel([0.0, 980.0, WIDTH as f32, 100.0], [0.0, 0.0], 16.0),
        Kind::Frame {
            at: [760, 560],
            size: [480, 220],
            border: 4,
            tag: 3,
            tint: true,
            xray: false,
        },
    ];
    let clip = [0, 0, WIDTH as i32, HEIGHT as i32];
    let layer = |(i, kind)| Layer {
        priority: 9 + i as u16,
        clip,
        kind,
    };
    kinds.into_iter().enumerate().map(layer).collect()
}

/// The show's layers by turns under an empty clip; a frame, which ignores that, has no height.
fn idle_layers(priorities: &[u16]) -> Vec<Layer> {
    let mut idle = Vec::with_capacity(MOST);
    for (priority, mut layer) in priorities.iter().zip(layers().into_iter().cycle()) {
        layer.priority = *priority;
        layer.clip = [0, 0, 0, 0];
        if let Kind::Frame { size, .. } = &mut layer.kind {
            size[1] = 0;
        }
        idle.push(layer);
    }
    idle
}
