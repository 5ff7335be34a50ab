//! A canvas of either side, of the same pixels, and one for pixman.
use crate::clock::{least_each, least_of, line, line_beside, Goal};
use crate::leaves::Random;
use crate::pixman::Work;
use kash::gfx::Canvas;

pub const WIDTH: usize = 1920;
pub const HEIGHT: usize = 1080;
pub const ROUNDS: u32 = 40;

pub struct Sides {
    ours: Vec<u32>,
    rust: Canvas,
    pixman: Vec<u32>,
}

impl Sides {
    pub fn new() -> Sides {
        let rust = canvas(3, WIDTH, HEIGHT);
        Sides {
            ours: rust.px.clone(),
            pixman: rust.px.clone(),
            rust,
        }
    }

    /// Times a painter, per pixel of the canvas. `most` is the ratio to reach.
    pub fn line(
        &mut self,
        name: &str,
        input: &str,
        most: f64,
        ours: impl Fn(&mut [u32]),
        rust: impl Fn(&mut Canvas),
    ) {
        let Sides {
            ours: px, rust: c, ..
        } = self;
        let times = least_of(ROUNDS, WIDTH * HEIGHT, || ours(px), || rust(c));
        line(name, input, times, Goal::Ratio(most));
        self.hold_equal(name, input);
    }

    /// The same in a table that has a column for pixman. Without its work the column is empty.
    pub fn line_beside(
        &mut self,
        name: &str,
        input: &str,
        most: f64,
        ours: impl Fn(&mut [u32]),
        rust: impl Fn(&mut Canvas),
        pixman: Option<Work>,
    ) {
        let things = WIDTH * HEIGHT;
        let mut ours = || ours(&mut self.ours);
        let mut rust = || rust(&mut self.rust);
        let (times, third) = match pixman {
            Some(work) => {
                let mut pixman = || work(&mut self.pixman);
                let [a, b, c] = least_each(ROUNDS, things, [&mut ours, &mut rust, &mut pixman]);
                ((a, b), Some(c))
            }
            None => (least_of(ROUNDS, things, ours, rust), None),
        };
        line_beside(name, input, times, Goal::Ratio(most), third);
        self.hold_equal(name, input);
    }

    /// Both sides have painted as often, each on what it left before: so they show the same, but for the top bytes that
    /// kash-ui's straight copies hand on.
    fn hold_equal(&self, name: &str, input: &str) {
        let colors = |px: &[u32]| px.iter().map(|p| p & 0xFF_FFFF).collect::<Vec<u32>>();
        assert!(
            colors(&self.ours) == colors(&self.rust.px),
            "{name}, {input}: the two sides paint different pixels"
        );
    }
}

/// A canvas of random pixels.
pub fn canvas(seed: u64, w: usize, h: usize) -> Canvas {
    let mut random = Random(seed);
    let mut canvas = Canvas::new(w as i32, h as i32);
    canvas.px.fill_with(|| random.word());
    canvas
}
