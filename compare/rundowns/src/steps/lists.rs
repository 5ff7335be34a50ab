//! Which calls a playing in steps is made of.
use super::beside::wrong_play;
use super::edits::edit;
use super::lending::Lending;
use super::playing::{Call, Playing};
use crate::case::Case;
use crate::check::Expected;
use common::draw::Draw;
use common::layers::draw::pick;
use common::lend::Lent;
use reading::BLOCK;

/// A rundown of more layers is played to its end once in so many times, for every call tests them all; else it has a
/// few steps.
const LONG: usize = 16;
const TO_THE_END: u64 = 16;
const FEW: usize = 4;

/// A begin, then steps from none on, each given what the one before returned, up to a refusal. Mostly sources get
/// fresh pixels before some of them.
pub fn in_order(draw: &mut Draw, case: &Case, expected: &Expected, lent: Lent) -> Playing {
    let layers = case.rundown.len() / BLOCK;
    let steps = match layers {
        0..=LONG => LONG + 1,
        _ if draw.below(TO_THE_END) == 0 => layers + 1,
        _ => FEW,
    };
    let pool_stays = draw.below(4) == 0;
    let mut lending = Lending::of(case);
    let mut playing = Playing::of(case, lent);
    playing.call(Call::Begin, &lending);
    let mut last = none(draw);
    for _ in 0..steps {
        if !pool_stays && draw.below(3) == 0 {
            lending.refresh(draw, case.hidden);
        }
        match playing.call(Call::Step(last), &lending) {
            Some(Ok(priority)) => last = priority as u32,
            _ => break,
        }
    }
    let wrong = || wrong_play(&playing, expected, pool_stays);
    playing.wrong = playing.wrong.clone().or_else(wrong);
    playing
}

/// Calls in any order, some of them lent something else.
pub fn any(draw: &mut Draw, case: &Case, lent: Lent) -> Playing {
    let mut lending = Lending::of(case);
    let mut playing = Playing::of(case, lent);
    let mut given = none(draw);
    let mut painted = None;
    for _ in 0..2 + draw.below(9) {
        let now = lend(draw, &mut lending, case.hidden);
        let call = match draw.below(8) {
            0 => Call::Begin,
            _ => {
                given = last(draw, &now, given, painted);
                Call::Step(given)
            }
        };
        match (call, playing.call(call, &now)) {
            (_, None) => break,
            (Call::Step(_), Some(Ok(priority))) => painted = Some(priority as u16),
            _ => {}
        }
    }
    playing
}

/// What the next call is lent: now and then something else than the one before, for this call alone or, where it is not
/// refused, for good.
fn lend(draw: &mut Draw, lending: &mut Lending, hidden: usize) -> Lending {
    if draw.below(4) == 0 {
        lending.refresh(draw, hidden);
    }
    let mut now = lending.clone();
    if draw.below(3) == 0 {
        edit(draw, &mut now, hidden);
        if draw.below(4) == 0 && now.show().begin().is_ok() {
            *lending = now.clone();
        }
    }
    now
}

/// A number that says that no priority was painted before.
fn none(draw: &mut Draw) -> u32 {
    match draw.below(4) {
        0 => 1 << 16,
        1 => u32::MAX,
        _ => (draw.bits() as u32).max(1 << 16),
    }
}

/// The last painted priority that a step is given: mostly the one that was `painted` last; or the one that was `given`
/// last, none, one of the rundown's, or any.
fn last(draw: &mut Draw, lending: &Lending, given: u32, painted: Option<u16>) -> u32 {
    let priorities = lending.priorities();
    let there = match priorities[..] {
        [] => 0,
        _ => pick(draw, &priorities) as u32,
    };
    match draw.below(16) {
        0..=1 => given,
        2 => none(draw),
        // none, and a priority in its lower half
        3 => 1 << 16 | there,
        4..=5 => there,
        6 => there.saturating_sub(1),
        7 => there + 1,
        8 => priorities.iter().max().map_or(0, |highest| *highest as u32),
        9 => pick(draw, &[0, 1, 0x7FFF, 0xFFFE, 0xFFFF]),
        10 => draw.bits() as u16 as u32,
        _ => painted.map_or_else(|| none(draw), |priority| priority as u32),
    }
}
