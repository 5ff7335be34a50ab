//! The cases played in steps: each in ascending priority, and of some that are accepted a drawn list of calls.
mod beside;
mod classes;
mod edits;
mod lending;
mod lists;
mod playing;
mod rust;

use crate::case::Case;
use crate::check::{tell, Expected};
use beside::wrong_stain;
use classes::CLASSES;
use common::draw::Draw;
use common::lend::Lent;
use common::sorts::Tally;
use common::{Sum, Verdict};
use playing::{Call, Playing, Told};
use reading::Answer;

/// One of so many accepted cases has a list of calls, too.
const LISTED: u64 = 4;

/// A playing in steps, and what became of it.
pub struct Outcome {
    pub calls: Vec<Told>,
    /// A begin, and then steps that are each given what the one before returned.
    pub in_order: bool,
    /// The source whose pixels differ in the second playing.
    pub hidden: usize,
}

/// The playings, their calls, and those that paint a layer.
#[derive(Default)]
pub struct Counts {
    tally: Tally,
    calls: usize,
    painted: usize,
}

impl Counts {
    /// Says what was met: no sort may be missed, and nothing may differ.
    pub fn judged(&self, verdict: &mut Verdict) {
        self.say();
        self.tally.judged("playings in steps", CLASSES, verdict);
    }

    /// The same where sorts may be missed, but not all playings.
    pub fn watched(&self, verdict: &mut Verdict) {
        self.say();
        self.tally.watched("playings in steps", CLASSES, verdict);
    }

    fn say(&self) {
        let Counts { calls, painted, .. } = self;
        println!("{calls} calls in steps, {painted} of them paint a layer");
    }

    fn count(&mut self, playing: Playing, in_order: bool, case: &Case, answer: Answer) {
        let stain = || wrong_stain(&playing);
        let wrong = playing.wrong.clone().or_else(stain);
        let calls = playing.calls;
        if let Some(what) = wrong {
            self.tally.differs(|| {
                let made: Vec<(Call, Answer)> = calls.iter().map(|c| (c.call, c.answer)).collect();
                format!(
                    "in steps, {what} at the end of {made:?}: {}",
                    tell(case, answer)
                )
            });
        }
        self.calls += calls.len();
        self.painted += calls.iter().filter(|c| c.step.is_some()).count();
        let accepted = calls.first().is_some_and(|c| c.answer.is_ok());
        let outcome = Outcome {
            calls,
            in_order,
            hidden: case.hidden,
        };
        self.tally.count(&outcome, CLASSES, accepted);
    }
}

impl Sum for Counts {
    fn add(&mut self, other: Counts) {
        self.tally.add(other.tally);
        self.calls += other.calls;
        self.painted += other.painted;
    }
}

/// Plays the case in steps on both sides. `expected` is what a play of it as a whole has to give.
pub fn check(case: &Case, expected: &Expected, draw: &mut Draw, lent: Lent, counts: &mut Counts) {
    let answer = expected.answer;
    let playing = lists::in_order(draw, case, expected, lent);
    counts.count(playing, true, case, answer);
    if answer.is_ok() && draw.below(LISTED) == 0 {
        counts.count(lists::any(draw, case, lent), false, case, answer);
    }
}
