//! The forecast on both sides, and the plays that it is tied to: with just the scratch that it names, and
//! with a byte less.
use crate::case::Case;
use crate::check::{Expected, FILLED};
use common::lend::{guarded, inner, Lent, Read, GUARD_WORD};
use ours::surface::{self, BOXES};
use reading::{packed, Answer, Area, Cause, Forecast, Glass, Kind, Layer};

/// The reading's forecast, or its refusal.
pub type Counted = Result<Forecast, (Cause, usize)>;

/// A layer of a rundown that is counted, in the buffer's order.
pub struct Planned {
    pub layer: Layer,
    pub area: Area,
    /// Of a glass, with its k.
    pub window: Option<(Area, i32)>,
    pub need: usize,
}

impl Planned {
    pub fn glass(&self) -> Option<&Glass> {
        match &self.layer.kind {
            Kind::Glass(glass) => Some(glass),
            _ => None,
        }
    }
}

/// The count of layers, as play answers it.
fn layers(counted: &Counted) -> Answer {
    match counted {
        Ok(forecast) => Ok(forecast.layers),
        Err(refused) => Err(*refused),
    }
}

/// The layers of a rundown that is counted.
pub fn planned(case: &Case, counted: &Counted) -> Vec<Planned> {
    let show = case.show();
    let of = |layer: Layer| Planned {
        area: show.area(&layer),
        window: match &layer.kind {
            Kind::Glass(glass) => Some((glass.window(show.whole()), glass.scale() as i32)),
            _ => None,
        },
        need: show.need(&layer),
        layer,
    };
    match counted {
        Ok(_) => show.layers().map(of).collect(),
        Err(_) => Vec::new(),
    }
}

/// What of the forecast, or of the plays that it is tied to, is not as it has to be.
pub fn wrong(case: &Case, expected: &Expected, lent: Lent) -> Option<String> {
    wrong_forecast(case, &expected.counted, lent)
        .or_else(|| untied(expected))
        .or_else(|| unexpected(case, &expected.counted))
        .or_else(|| wrong_plays(case, expected, lent))
}

/// What of the answer and of both arrays is not as the reading has it: on a refusal they stay.
fn wrong_forecast(case: &Case, counted: &Counted, lent: Lent) -> Option<String> {
    const HELD: (i32, u64) = (-0x5A5A_5A5A, 0x5A5A_5A5A_5A5A_5A5A);
    let (mut wanted, mut sums) = ([HELD.0; BOXES], [HELD.1; 2]);
    let (word, double) = (GUARD_WORD as i32, GUARD_WORD as u64);
    let mut boxes = guarded(lent, word, &wanted);
    let mut totals = guarded(lent, double, &sums);
    let read = Read::of(case.lent(&[]));
    let answer = surface::forecast(
        read.show(),
        inner(&mut boxes, lent).try_into().expect("1024 numbers"),
        inner(&mut totals, lent).try_into().expect("two sums"),
    );
    if answer != packed(layers(counted)) {
        return Some(format!("the forecast's answer is {answer:X}"));
    }
    if let Ok(forecast) = counted {
        sums = [forecast.scratch as u64, forecast.cells];
        for (numbers, area) in wanted.as_chunks_mut().0.iter_mut().zip(&forecast.boxes) {
            *numbers = [area.x0, area.y0, area.x1, area.y1];
        }
    }
    if totals != guarded(lent, double, &sums) {
        return Some(format!(
            "the forecast's sums are {totals:X?}, not {sums:X?}"
        ));
    }
    if boxes != guarded(lent, word, &wanted) {
        let at = (0..BOXES).find(|i| inner(&mut boxes, lent)[*i] != wanted[*i]);
        return Some(format!("the forecast's boxes differ at {at:?}"));
    }
    (!read.kept(case.lent(&[]))).then(|| "the forecast changes what it is lent to read".into())
}

/// Where the reading's own forecast does not go with its play: all that play refuses besides is a length
/// of pixels or scratch.
fn untied(expected: &Expected) -> Option<String> {
    let tied = match (&expected.counted, expected.answer) {
        (Ok(forecast), Ok(layers)) => forecast.layers == layers,
        (Ok(_), Err((cause, _))) => {
            matches!(cause, Cause::Canvas | Cause::Sources | Cause::Scratch)
        }
        (Err(_), Ok(_)) => false,
        (Err(refused), Err(played)) => {
            *refused == played || matches!(played.0, Cause::Canvas | Cause::Sources)
        }
    };
    (!tied).then(|| format!("the reading's forecast is {:?}", expected.counted))
}

/// The reading is held to the faults that were put in.
fn unexpected(case: &Case, counted: &Counted) -> Option<String> {
    let known = case.known_forecast()?;
    (known != layers(counted))
        .then(|| format!("the reading: the faults are to give the forecast {known:?}"))
}

/// Where nothing but scratch can be refused: with just the scratch that the forecast names a play is
/// accepted; with a byte less, in either slice or in both, it is refused at the first block that needs
/// so much.
fn wrong_plays(case: &Case, expected: &Expected, lent: Lent) -> Option<String> {
    let forecast = expected.playable()?;
    let just = forecast.scratch;
    let with = |lengths, answer, wanted: &[u32]| {
        let played = case.play(&case.pool, lengths, lent, FILLED[0]);
        let what = played.wrong(answer, wanted)?;
        Some(format!("{what} with scratch {lengths:?}"))
    };
    let painted = match expected.answer {
        Ok(_) => None,
        Err(_) => Some(Expected::of(&case.lending(just))),
    };
    let wanted = painted.as_ref().unwrap_or(expected);
    let enough = with([just; 2], Ok(forecast.layers), &wanted.canvas);
    if enough.is_some() || just == 0 {
        return enough;
    }
    let dearest = expected.planned.iter().position(|p| p.need == just);
    let refused = Err((Cause::Scratch, dearest.expect("a layer needs so much")));
    let short = [[just - 1, just], [just, just - 1], [just - 1; 2]];
    short
        .into_iter()
        .find_map(|lengths| with(lengths, refused, &case.canvas))
}
