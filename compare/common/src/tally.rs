//! Counting the layers of one painter, and the pixels that differ.
use crate::edges::Class;
use crate::painters::{after_rust, Case};
use crate::Sum;

#[derive(Default)]
pub struct Tally {
    pub layers: u64,
    /// Layers of which the Rust changed a pixel.
    pub painted: u64,
    pub pixels: u64,
    /// Pixels that the Rust changed.
    pub changed: u64,
    pub differ: u64,
    /// The first difference that was met, in words.
    pub first: Option<String>,
    /// How many layers lie at each of the edges.
    pub classes: Vec<u64>,
}

impl Tally {
    /// Paints the layer on both sides and compares every pixel.
    pub fn check<C: Case>(&mut self, case: &C, classes: &[Class<C>]) {
        assert!(case.accepted(), "out of range: {case:?}");
        let at = case.onto();
        let before = case.canvas_before().take(at.w * at.h);
        let rust = after_rust(case, &before);
        let mut ours = before.clone();
        case.paint_ours(&mut ours);
        let changed = count(&before, &rust);
        self.layers += 1;
        self.painted += (changed > 0) as u64;
        self.changed += changed;
        self.compare(case, &ours, &rust);
        self.classes.resize(classes.len(), 0);
        for (hits, (_, is)) in self.classes.iter_mut().zip(classes) {
            *hits += is(case) as u64;
        }
    }

    /// Something does not fit its size: the canvas has to stay as it was.
    pub fn check_kept(&mut self, case: &impl Case, length: usize) {
        let before = case.canvas_before().take(length);
        let mut ours = before.clone();
        case.paint_ours(&mut ours);
        self.layers += 1;
        self.compare(case, &ours, &before);
    }

    fn compare(&mut self, case: &impl Case, ours: &[u32], expected: &[u32]) {
        self.pixels += ours.len() as u64;
        let differ = count(ours, expected);
        self.differ += differ;
        if differ > 0 && self.first.is_none() {
            let at = (0..ours.len()).find(|i| ours[*i] != expected[*i]);
            let at = at.expect("some pixel differs");
            self.first = Some(format!(
                "{case:?}: pixel {at}: ours {:08X}, expected {:08X}",
                ours[at], expected[at]
            ));
        }
    }

    pub fn show_first(&self) {
        if let Some(first) = &self.first {
            println!("    {first}");
        }
    }
}

impl Sum for Tally {
    fn add(&mut self, other: Tally) {
        self.layers += other.layers;
        self.painted += other.painted;
        self.pixels += other.pixels;
        self.changed += other.changed;
        self.differ += other.differ;
        self.first = self.first.take().or(other.first);
        self.classes.resize(other.classes.len(), 0);
        for (mine, others) in self.classes.iter_mut().zip(other.classes) {
            *mine += others;
        }
    }
}

/// How many pixels differ.
fn count(a: &[u32], b: &[u32]) -> u64 {
    a.iter().zip(b).filter(|(a, b)| a != b).count() as u64
}
