//! Plays a rundown on both sides, and once more with one source changed; maps the stain on both sides, asks
//! both for the forecast, and plays it in steps.
use crate::case::Case;
use crate::dearest::dearer;
use crate::forecast::{self, planned, Counted, Planned};
use crate::steps;
use crate::top_bytes::{Last, TopBytes};
use common::draw::Draw;
use common::layers::kash::{canvas_of, paint, Sources};
use common::lend::{guarded, inner, Lent, Played, Read, GUARD_BYTE};
use common::sorts::{Class, Tally};
use common::Sum;
use kash::glass::GlassScratch;
use ours::surface;
use reading::{packed, Answer, Area, Cause, Effect, Forecast, Layer, Stain};

/// What scratch holds before the first play, and before the second.
pub const FILLED: [u8; 2] = [0x5A, 0xC3];

/// A case, what the reading and kash-ui make of it, and what became of the stain.
pub struct Outcome {
    pub case: Case,
    pub answer: Answer,
    /// In ascending priority; none after a refusal.
    pub layers: Vec<Seen>,
    /// Whether the two plays left a pixel different.
    pub differ: bool,
    /// Whether the stain holds a pixel in the end, and whether it does not hold one.
    pub stained: bool,
    pub spared: bool,
    /// What the stain's map is answered with.
    pub mapped: Answer,
    pub counted: Counted,
    /// In the buffer's order; none where the forecast is refused.
    pub planned: Vec<Planned>,
}

/// A layer of an accepted rundown.
pub struct Seen {
    pub layer: Layer,
    pub area: Area,
    /// Whether kash-ui changed a pixel, and whether one outside the box.
    pub painted: bool,
    pub strayed: bool,
    pub effect: Effect,
    pub top_bytes: TopBytes,
}

/// What a play has to give, by the reading and kash-ui.
pub struct Expected {
    pub answer: Answer,
    pub canvas: Vec<u32>,
    pub counted: Counted,
    pub planned: Vec<Planned>,
    pub layers: Vec<Seen>,
    pub stain: Stain,
}

impl Expected {
    pub fn of(case: &Case) -> Expected {
        let show = case.show();
        let counted = show.forecast();
        let mut expected = Expected {
            answer: show.answer(),
            canvas: case.canvas.clone(),
            planned: planned(case, &counted),
            counted,
            layers: Vec::new(),
            stain: Stain::empty(&show, case.hidden),
        };
        if expected.answer.is_ok() {
            let ordered = show.in_order();
            let painted = play_kash(case, &ordered, &mut expected.canvas);
            for (layer, (changed, top_bytes)) in ordered.into_iter().zip(painted) {
                let area = show.area(&layer);
                let effect = expected.stain.paint(&show, &layer);
                expected.layers.push(Seen {
                    layer,
                    area,
                    painted: !changed.is_empty(),
                    strayed: changed.iter().any(|at| !area.holds(*at, show.width)),
                    effect,
                    top_bytes,
                });
            }
        }
        expected
    }

    /// The forecast, where play can refuse nothing but scratch.
    pub fn playable(&self) -> Option<&Forecast> {
        match self.answer {
            Ok(_) | Err((Cause::Scratch, _)) => self.counted.as_ref().ok(),
            Err(_) => None,
        }
    }

    /// With whether the two plays left a pixel different.
    pub fn outcome(self, case: Case, differ: bool) -> Outcome {
        let mapped = case.show().stain_answer();
        Outcome {
            case,
            answer: self.answer,
            layers: self.layers,
            differ,
            stained: self.stain.holds.contains(&true),
            spared: self.stain.holds.contains(&false),
            mapped,
            counted: self.counted,
            planned: self.planned,
        }
    }
}

/// The rundowns, and the playings of them in steps.
#[derive(Default)]
pub struct Counts {
    pub rundowns: Tally,
    pub steps: steps::Counts,
}

impl Sum for Counts {
    fn add(&mut self, other: Counts) {
        self.rundowns.add(other.rundowns);
        self.steps.add(other.steps);
    }
}

/// Plays the case on both sides, and compares all there is to compare. By `draw` it is played in steps.
pub fn check(
    case: Case,
    draw: &mut Draw,
    lent: Lent,
    counts: &mut Counts,
    classes: &[Class<Outcome>],
) {
    let tally = &mut counts.rundowns;
    let expected = Expected::of(&case);
    let answer = expected.answer;
    let first = case.play(&case.pool, case.scratch, lent, FILLED[0]);
    let second = case.play(&case.other, case.scratch, lent, FILLED[1]);
    let wrong = first
        .wrong(answer, &expected.canvas)
        .or_else(|| wrong_again(case.hidden, [&first, &second], answer, &expected.stain))
        .or_else(|| wrong_map(&case, lent))
        .or_else(|| forecast::wrong(&case, &expected, lent))
        .or_else(|| dearer(&case, &expected.planned))
        .or_else(|| strayed(&expected))
        .or_else(|| unexpected(&case, answer));
    if let Some(what) = wrong {
        tally.differs(|| format!("{what}: {}", tell(&case, answer)));
    }
    steps::check(&case, &expected, draw, lent, &mut counts.steps);
    let differ = first.canvas != second.canvas;
    tally.count(&expected.outcome(case, differ), classes, answer.is_ok());
}

/// The reading is held to the faults that were put in.
fn unexpected(case: &Case, answer: Answer) -> Option<String> {
    let known = case.known()?;
    (known != answer).then(|| format!("the reading: the faults are to give {known:?}"))
}

/// No pixel outside a box changes.
fn strayed(expected: &Expected) -> Option<String> {
    let layer = expected.layers.iter().find(|seen| seen.strayed)?;
    Some(format!("kash-ui paints outside {:?}", layer.area))
}

/// What of the stain's map is not as the reading has it.
fn wrong_map(case: &Case, lent: Lent) -> Option<String> {
    let show = case.show();
    let answer = show.stain_answer();
    let mut map = guarded(lent, GUARD_BYTE, &vec![FILLED[0]; case.canvas.len()]);
    let read = Read::of(case.lent(&[]));
    let to = inner(&mut map, lent);
    let ours = surface::stain(read.show(), case.hidden as u32, to);
    if ours != packed(answer) {
        return Some(format!("the map's answer is {ours:X}"));
    }
    let mut wanted = vec![FILLED[0]; case.canvas.len()];
    if answer.is_ok() {
        let mut stain = Stain::empty(&show, case.hidden);
        for layer in show.in_order() {
            stain.paint(&show, &layer);
        }
        wanted = stain.holds.iter().map(|held| *held as u8).collect();
    }
    (map != guarded(lent, GUARD_BYTE, &wanted)).then(|| {
        let map = inner(&mut map, lent);
        let at = (0..wanted.len()).find(|i| map[*i] != wanted[*i]);
        format!("source {}: the map differs at {at:?}", case.hidden)
    })
}

/// The layers painted by kash-ui: the pixels that each of them changed, and what it did to top bytes.
fn play_kash(case: &Case, ordered: &[Layer], canvas: &mut Vec<u32>) -> Vec<(Vec<usize>, TopBytes)> {
    let sources = Sources::cut(&case.table, &case.pool);
    let mut onto = canvas_of(case.width, case.height, canvas);
    let mut scratch = GlassScratch::default();
    let mut last = Last::none(canvas.len());
    let painted = ordered
        .iter()
        .map(|layer| {
            canvas.copy_from_slice(&onto.px);
            paint(&mut onto, layer, &sources, &mut scratch);
            let changed = (0..canvas.len()).filter(|i| canvas[*i] != onto.px[*i]);
            let top_bytes = last.step(layer, &sources, canvas, &onto);
            (changed.collect(), top_bytes)
        })
        .collect();
    *canvas = onto.px;
    painted
}

/// What of the second play differs from the first although the stain does not hold it.
pub fn wrong_again(
    hidden: usize,
    [first, second]: [&Played; 2],
    answer: Answer,
    stain: &Stain,
) -> Option<String> {
    if second.answer != first.answer {
        return Some(format!("source {hidden}: the answer changes"));
    }
    let differs = |i: &usize| second.canvas[*i] != first.canvas[*i] && !stain.holds[*i];
    if let Some(at) = (0..first.canvas.len()).find(differs) {
        return Some(format!("source {hidden}: pixel {at} changes"));
    }
    let what = second.changed(answer)?;
    Some(format!("the second play: {what}"))
}

/// The case in words.
pub fn tell(case: &Case, answer: Answer) -> String {
    let show = case.show();
    let layers = match answer {
        Ok(_) => format!("{:?}", show.in_order()),
        Err(_) => format!("{} bytes", case.rundown.len()),
    };
    format!(
        "{} by {}, {} pixels, table {:?}, pool {}, scratch {:?}, faults {:?}, the reading {answer:?}: {layers}",
        case.width,
        case.height,
        case.canvas.len(),
        case.table,
        case.pool.len(),
        case.scratch,
        case.faults
    )
}
