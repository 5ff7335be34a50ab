//! `mixer stain`: which pixels a private source can reach.
use super::Command;
use crate::cli::args::{many, once, Args, Opt, OUT};
use crate::cli::failure::Failure;
use crate::hatch;
use crate::interpreter::{self, Interpreter};
use crate::job::{Job, BACKGROUND};
use crate::names::NAMES;
use crate::sources::{PICTURE, SIZES};
use show::boxes;
use std::ffi::OsStr;
use tiglostrema::{stain, IRect, Rundown, SourceId, SourceTable, Stain};

const HIDE: Opt = once("--hide");
const INTERPRETER: Opt = once("--interpreter");
const INSTEAD: Opt = once("--instead");

pub const COMMAND: Command = Command {
    name: "stain",
    summary: "shows which pixels a private source can reach",
    help: include_str!("stain.help"),
    options: &[
        once("--canvas"),
        many(PICTURE),
        many(SIZES),
        NAMES,
        HIDE,
        INTERPRETER,
        INSTEAD,
        BACKGROUND,
        OUT,
    ],
    run,
};

fn run(mut args: Args) -> Result<String, Failure> {
    let out = args.required(OUT.name)?;
    let hide = args.required(HIDE.name)?;
    let interpreter = args.optional(INTERPRETER.name);
    let instead = args.optional(INSTEAD.name);
    let more: Vec<&OsStr> = instead.as_deref().into_iter().collect();
    let mut job: Job = Job::read(args, Some(&out), &more)?;
    let hidden = job.sources.given.find(&HIDE, &hide)?;
    let mut pixels = job.play()?.pixels;
    let rundown = job.layers()?;
    let interpreter = interpreter
        .map(|word| find(&job, &rundown, &word))
        .transpose()?;
    let map = map(&job, &rundown, hidden)?;
    let mut words = reach(&job, &rundown, hidden, &map);
    if let Some(Interpreter { layer, area, .. }) = &interpreter {
        let part = share(map.count_in(*area), area.area() as usize);
        words.push_str(&format!(
            "the interpreter, {layer}: it can reach {part} of its box\n"
        ));
    }
    let area = interpreter.as_ref().map(|i| i.area);
    let reaching = reaching(&job, &rundown, hidden, area)?;
    if let Some(other) = instead {
        job.sources.replace(hidden, &INSTEAD, &other)?;
        words.push_str(&differences(&pixels, &job.play()?.pixels, &map));
    }
    hatch::stain(&mut pixels, &map);
    if let Some(Interpreter { area, .. }) = &interpreter {
        hatch::outline(&mut pixels, map.width(), *area);
    }
    job.write(&out, pixels)?;
    match reaching {
        Some(source) => Err(reached(words, &job, source)),
        None => Ok(words),
    }
}

/// The source that can reach the interpreter's box: the hidden one, or another that shows the same picture.
fn reaching(
    job: &Job,
    rundown: &Rundown,
    hidden: SourceId,
    area: Option<IRect>,
) -> Result<Option<SourceId>, Failure> {
    let twins = job.sources.twins(hidden);
    for source in [hidden].into_iter().chain(twins).filter(|_| area.is_some()) {
        let map = map(job, rundown, source)?;
        if area.is_some_and(|area| map.count_in(area) > 0) {
            return Ok(Some(source));
        }
    }
    Ok(None)
}

/// The answer where a stained pixel lies in the interpreter's box.
fn reached(mut words: String, job: &Job, source: SourceId) -> Failure {
    let source = job.sources.given.names.source(source);
    words.push_str(&format!(
        "{source} can reach the interpreter: exit status {}\n",
        Failure::REACHED
    ));
    Failure::Reached(words)
}

/// The stain, from the library.
fn map(job: &Job, rundown: &Rundown, hidden: SourceId) -> Result<Stain, Failure> {
    let refused = |refusal| job.refused(&refusal);
    let mut table = SourceTable::new();
    for (w, h) in &job.sources.given.sizes {
        table.push(*w, *h).map_err(refused)?;
    }
    let (w, h) = job.canvas;
    stain(rundown, w, h, &table, hidden).map_err(refused)
}

/// How far the source reaches; a source that no layer copies reaches nothing for that reason, which is said.
fn reach(job: &Job, rundown: &Rundown, hidden: SourceId, map: &Stain) -> String {
    let copied = rundown.iter().any(|(_, l)| l.source() == Some(hidden));
    let source = job.sources.given.names.source(hidden);
    let part = share(map.count(), map.as_bytes().len());
    let why = if copied { "" } else { ": no layer copies it" };
    let (twins, order) = (twins(job, hidden), order(job));
    format!("{source} can reach {part}{why}\n{twins}{order}")
}

/// Names that no text gives may be taken for the show's own, so their numbers are told.
fn order(job: &Job) -> String {
    let order = job.sources.given.names.by_order().map(|order| {
        format!("without `--names` the sources are numbered in their order here: {order}\n")
    });
    order.unwrap_or_default()
}

/// A source that shows the same picture has a stain of its own, which the private one's would hide.
fn twins(job: &Job, hidden: SourceId) -> String {
    let all = job.sources.twins(hidden).into_iter();
    let line = |twin| {
        let twin = job.sources.given.names.source(twin);
        format!("{twin} shows the same picture, and what it can reach is not counted here\n")
    };
    all.map(line).collect()
}

/// The interpreter's layer, of an option's value.
fn find(job: &Job, rundown: &Rundown, word: &OsStr) -> Result<Interpreter, Failure> {
    let priority = interpreter::priority(&INTERPRETER, word, &job.sources.given.names, rundown)?;
    let sizes = boxes::Sizes {
        canvas: Some(job.canvas),
        sources: &job.sources.given.sizes,
    };
    let interpreter = Interpreter::find(rundown, priority, &sizes, &job.sources.given.names)?;
    match interpreter.source {
        Some(source) => interpreter.seen(&map(job, rundown, source)?),
        None => Ok(interpreter),
    }
}

/// How many pixels of two plays differ, inside the stain and outside.
fn differences(a: &[u32], b: &[u32], map: &Stain) -> String {
    let pairs = a.iter().zip(b).zip(map.as_bytes());
    let (mut inside, mut outside) = (0, 0);
    for (_, stained) in pairs.filter(|((a, b), _)| a != b) {
        match stained {
            0 => outside += 1,
            _ => inside += 1,
        }
    }
    format!("with another picture in its place {inside} pixels differ inside the stain, {outside} outside\n")
}

/// How many of all, and the share, which is 0.0 % for none alone and 100.0 % for all alone.
fn share(count: usize, all: usize) -> String {
    let percent = count as f64 * 100.0 / all.max(1) as f64;
    let share = match percent {
        p if count > 0 && p < 0.05 => "under 0.1 %".to_owned(),
        p if count < all && p >= 99.95 => "over 99.9 %".to_owned(),
        p => format!("{p:.1} %"),
    };
    format!("{count} of {all} pixels ({share})")
}

#[cfg(test)]
mod tests {
    use super::*;

    #[test]
    fn shares() {
        assert_eq!(share(0, 921600), "0 of 921600 pixels (0.0 %)");
        assert_eq!(share(1, 921600), "1 of 921600 pixels (under 0.1 %)");
        assert_eq!(share(1, 1000), "1 of 1000 pixels (0.1 %)");
        assert_eq!(
            share(921599, 921600),
            "921599 of 921600 pixels (over 99.9 %)"
        );
        assert_eq!(share(7, 7), "7 of 7 pixels (100.0 %)");
    }
}
