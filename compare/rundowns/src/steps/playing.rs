//! Two playings in steps that differ in the hidden source's pixels alone, call by call, the first beside the reading
//! and kash-ui.
use super::lending::Lending;
use super::rust::{Painted, Rust};
use crate::case::Case;
use crate::check::{wrong_again, FILLED};
use common::lend::{Lent, Played};
use ours::surface;
use reading::{last_painted, Answer, Cause, Effect, Layer, Show, Stain};

/// A call of a playing in steps.
#[derive(Clone, Copy, PartialEq, Eq, Debug)]
pub enum Call {
    /// The first one: tests alone.
    Begin,
    /// A further one, with the last painted priority; above 65535 it is none.
    Step(u32),
}

impl Call {
    fn make(self, show: surface::Show, canvas: &mut [u32], a: &mut [u8], b: &mut [u8]) -> u64 {
        match self {
            Call::Begin => surface::begin(show, canvas, a, b),
            Call::Step(last) => surface::step(show, canvas, a, b, last),
        }
    }

    /// The value that the reading answers, whose tests answer this, and the layer that is painted.
    fn read(self, show: &Show, tested: Answer) -> Result<(usize, Option<Layer>), (Cause, usize)> {
        let layers = tested?;
        match self {
            Call::Begin => Ok((layers, None)),
            Call::Step(last) => {
                let layer = show.next(last_painted(last))?;
                Ok((layer.priority as usize, Some(layer)))
            }
        }
    }
}

pub struct Playing {
    lent: Lent,
    pub hidden: usize,
    /// Ours, of both playings.
    pub canvases: [Vec<u32>; 2],
    /// kash-ui's, of the first.
    wanted: Vec<u32>,
    rust: Rust,
    /// Of the layers painted so far.
    pub stain: Stain,
    pub calls: Vec<Told>,
    /// The first thing that is not as it has to be.
    pub wrong: Option<String>,
}

/// A call, and what the reading and kash-ui make of it.
pub struct Told {
    pub call: Call,
    pub lending: Lending,
    /// What the tests alone answer.
    tested: Answer,
    pub answer: Answer,
    pub step: Option<Step>,
    /// How many pixels the stain holds after the call.
    pub stained: usize,
    /// Whether the two canvases differ after it.
    pub differ: bool,
}

/// The layer that a call paints, and what that does to canvas and stain.
pub struct Step {
    pub layer: Layer,
    pub painted: Painted,
    pub effect: Effect,
}

impl Playing {
    pub fn of(case: &Case, lent: Lent) -> Playing {
        Playing {
            lent,
            hidden: case.hidden,
            canvases: [case.canvas.clone(), case.canvas.clone()],
            wanted: case.canvas.clone(),
            rust: Rust::default(),
            stain: Stain::empty(&case.show(), case.hidden),
            calls: Vec::new(),
            wrong: None,
        }
    }

    /// The layers that were painted, in the order in which they were, each with what its call was lent.
    pub fn painted(&self) -> impl Iterator<Item = (&Layer, &Lending)> {
        self.calls
            .iter()
            .filter_map(|told| Some((&told.step.as_ref()?.layer, &told.lending)))
    }

    /// Makes the call in both playings: what the reading answers. None as soon as something is wrong.
    pub fn call(&mut self, call: Call, lending: &Lending) -> Option<Answer> {
        let show = lending.show();
        let tested = self.tested(lending);
        let (answer, chosen) = match call.read(&show, tested) {
            Ok((value, chosen)) => (Ok(value), chosen),
            Err(refused) => (Err(refused), None),
        };
        let step = chosen.map(|layer| {
            let earlier = self.calls.last().map(|told| &told.lending);
            Step {
                painted: self.rust.step(&layer, lending, earlier, &mut self.wanted),
                effect: self.stain.paint(&show, &layer),
                layer,
            }
        });
        let [first, second] = [0, 1].map(|k| self.play(call, lending, k));
        if self.wrong.is_none() {
            self.wrong = self.compare(&first, &second, answer, step.is_some());
        }
        self.canvases = [first.canvas, second.canvas];
        self.calls.push(Told {
            call,
            lending: lending.clone(),
            tested,
            answer,
            step,
            stained: self.stain.holds.iter().filter(|held| **held).count(),
            differ: self.canvases[0] != self.canvases[1],
        });
        self.wrong.is_none().then_some(answer)
    }

    /// The reading's tests: they are made once where one call after the other is lent the same.
    fn tested(&self, lending: &Lending) -> Answer {
        let same = |told: &&Told| told.lending.tests_as(lending);
        let before = self.calls.last().filter(same);
        before.map_or_else(|| lending.show().begin(), |told| told.tested)
    }

    fn play(&self, call: Call, lending: &Lending, which: usize) -> Played {
        Played::of(
            |show, canvas, a, b| call.make(show, canvas, a, b),
            lending.lent(which),
            &self.canvases[which],
            lending.scratch,
            self.lent,
            FILLED[which],
        )
    }

    /// What of either playing is not as it has to be.
    fn compare(
        &self,
        first: &Played,
        second: &Played,
        answer: Answer,
        paints: bool,
    ) -> Option<String> {
        first
            .wrong(answer, &self.wanted)
            .or_else(|| wrong_again(self.hidden, [first, second], answer, &self.stain))
            .or_else(|| {
                let stays = || {
                    let scratch = first.has_scratch() && second.has_scratch();
                    scratch && second.canvas == self.canvases[1]
                };
                let wrong = !paints && !stays();
                wrong.then(|| "a call that paints nothing changes something".into())
            })
    }
}
