//! Painters on small canvases: the same layers painted by ours and by kash-ui's, every pixel compared.
use crate::command::{recorded, Command};
use crate::draw::Draw;
use crate::edges::Class;
use crate::numbers::{Canvas, Pixels};
use crate::tally::Tally;
use crate::{over, record, Verdict};
use kash::geom::IRect;
use kash::gfx;
use ours::Onto;
use std::fmt::Debug;
use std::process::ExitCode;

/// One layer on one canvas, and how either side paints it.
pub trait Case: Debug + Sized + 'static {
    /// The painters' names; a painter goes by its place among them.
    const PAINTERS: &'static [&'static str];

    fn draw(draw: &mut Draw, painter: usize, canvas: Canvas) -> Self;

    /// A layer of which something does not fit its size, with the number of pixels of its canvas.
    fn unfit(draw: &mut Draw, painter: usize) -> (Self, usize);

    /// The edges at which a case may lie. A run that misses one fails.
    fn classes() -> Vec<Class<Self>>;

    /// Whether a rundown accepts the numbers.
    fn accepted(&self) -> bool;

    fn onto(&self) -> Onto;

    fn canvas_before(&self) -> Pixels;

    /// Where the layer lies: x, y, width and height.
    fn rect(&self) -> [f32; 4];

    fn radius(&self) -> f32;

    fn paint_ours(&self, px: &mut [u32]);

    /// The canvas has its clip already.
    fn paint_rust(&self, canvas: &mut gfx::Canvas);

    /// What a record holds of the layer itself, 14 words: see [`record`].
    fn words(&self) -> [u32; 14];
}

/// The canvas as the Rust leaves it.
pub fn after_rust(case: &impl Case, before: &[u32]) -> Vec<u32> {
    let at = case.onto();
    let [x0, y0, x1, y1] = at.clip;
    let mut canvas = gfx::Canvas::new(at.w as i32, at.h as i32);
    canvas.px.copy_from_slice(before);
    canvas.push_clip_i(IRect::new(x0, y0, x1, y1));
    case.paint_rust(&mut canvas);
    canvas.px
}

/// The program of these names. `layers` of each painter are compared: a sample, and all.
pub fn run<C: Case>(name: &str, layers: [u64; 2]) -> ExitCode {
    match Command::read() {
        Some(Command::Compare { all, seed }) => compare::<C>(layers[all as usize], seed),
        Some(Command::Record { file, seed }) => recorded(&file, record::write::<C>(&file, seed)),
        Some(Command::Exact { .. }) | None => {
            eprintln!("usage: {name} [sample | all] [SEED] | {name} record FILE [SEED]");
            ExitCode::from(2)
        }
    }
}

fn compare<C: Case>(layers: u64, seed: u64) -> ExitCode {
    println!("seed {seed}, {layers} layers of each painter");
    let classes = C::classes();
    let mut verdict = Verdict::default();
    let mut hits = Vec::new();
    for (painter, name) in C::PAINTERS.iter().enumerate() {
        let tally = over(layers, |i, tally: &mut Tally| {
            // a row or a column of 4096 now and then: it costs as much as 50 other canvases
            let canvas = if i % 2048 == 0 {
                Canvas::Longest
            } else {
                Canvas::Any
            };
            tally.check(&C::draw(&mut Draw::new(seed, i), painter, canvas), &classes)
        });
        println!(
            "{name:<22} {} layers, {} of them change a pixel; {} pixels compared, {} changed by the Rust, {} differ",
            tally.layers, tally.painted, tally.pixels, tally.changed, tally.differ
        );
        tally.show_first();
        verdict.check(tally.painted > 0 && tally.differ == 0);
        hits.push(tally.classes);
    }
    for (painter, name) in C::PAINTERS.iter().enumerate() {
        let tally = over(4096, |i, tally: &mut Tally| {
            let (case, length) = C::unfit(&mut Draw::new(seed, i), painter);
            tally.check_kept(&case, length);
        });
        println!(
            "{name:<22} {} that do not fit their size; {} pixels, {} of them changed",
            tally.layers, tally.pixels, tally.differ
        );
        tally.show_first();
        verdict.check(tally.layers > 0 && tally.differ == 0);
    }
    println!("layers at an edge:");
    let mut missed = 0;
    for (k, (name, _)) in classes.iter().enumerate() {
        let sum: u64 = hits.iter().map(|painter| painter[k]).sum();
        println!("    {sum:>9} {name}");
        missed += (sum == 0) as u32;
    }
    verdict.check(missed == 0);
    verdict.say()
}
