//! `mixer steps`: the picture of a rundown that is played layer by layer, with fresh sources in between.
use super::list::JSON;
use super::Command;
use crate::cli::args::{many, once, Args, OUT};
use crate::cli::failure::Failure;
use crate::engine::Stage;
use crate::fresh::{self, Asked, Fresh, FRESH};
use crate::job::{Job, BACKGROUND};
use crate::names::{Names, NAMES};
use crate::sources::{PICTURE, SIZES};
use crate::{files, table};
use show::{count, describe, steps_json};
use std::ffi::OsStr;
use tiglostrema::{Layer, Rundown, SourceId};

pub const COMMAND: Command = Command {
    name: "steps",
    summary: "renders a rundown layer by layer, with fresh pictures in between",
    help: include_str!("steps.help"),
    options: &[
        once("--canvas"),
        many(PICTURE),
        many(SIZES),
        NAMES,
        FRESH,
        BACKGROUND,
        JSON,
        OUT,
    ],
    run,
};

fn run(mut args: Args) -> Result<String, Failure> {
    let out = args.required(OUT.name)?;
    let json = args.flag(JSON.name);
    let asked = args.all(&[FRESH.name]).into_iter();
    let asked = asked.map(|(_, value)| Asked::of(&value));
    let asked = asked.collect::<Result<Vec<Asked>, Failure>>()?;
    let pictures: Vec<&OsStr> = asked.iter().map(|asked| &*asked.file).collect();
    let mut job: Job = Job::read(args, Some(&out), &pictures)?;
    let mut stage = job.stage();
    let begun = stage.begin(&job.rundown, &job.sources);
    begun.map_err(|refusal| job.refused(&refusal))?;
    let rundown = job.layers()?;
    let fresh = fresh::read(&asked, &job.sources, &rundown)?;
    let steps = play(&mut job, &mut stage, &rundown, &fresh)?;
    job.write(&out, stage.pixels)?;
    if json {
        let steps: Vec<_> = steps.iter().map(Painted::numbers).collect();
        return Ok(steps_json(&steps));
    }
    let (name, (w, h)) = (files::output(&out), job.canvas);
    let layers = count::of(steps.len(), "layer");
    let lines = lines(&steps, &job.sources.given.names);
    Ok(format!("{name}: {layers} on {w}x{h}\n{lines}"))
}

/// What a step has painted, and the pictures that were put into the pool right before it.
struct Painted<'a> {
    priority: u16,
    layer: Layer,
    fresh: Vec<&'a Fresh>,
}

impl Painted<'_> {
    /// The same with the numbers of the sources alone.
    fn numbers(&self) -> (u16, Layer, Vec<SourceId>) {
        let fresh = self.fresh.iter().map(|fresh| fresh.source);
        (self.priority, self.layer, fresh.collect())
    }
}

/// Paints layer by layer, each above the one that the library says it has painted last. What is fresh for a layer is put
/// into the pool before its step.
fn play<'a>(
    job: &mut Job,
    stage: &mut Stage,
    rundown: &Rundown,
    all: &'a [Fresh],
) -> Result<Vec<Painted<'a>>, Failure> {
    let _step = job.painting();
    let mut steps: Vec<Painted> = Vec::new();
    for (next, layer) in rundown.in_playing_order() {
        let fresh = put(job, all, next);
        let last = steps.last().map(|step| step.priority);
        let painted = stage.step(&job.rundown, &job.sources, last);
        let priority = painted.map_err(|refusal| job.refused(&refusal))?;
        steps.push(Painted {
            priority,
            layer,
            fresh,
        });
    }
    Ok(steps)
}

/// Puts what is fresh for the layer of that priority into the pool, and answers it.
fn put<'a>(job: &mut Job, all: &'a [Fresh], priority: u16) -> Vec<&'a Fresh> {
    let fresh = all.iter().filter(|fresh| fresh.priority == priority);
    let fresh: Vec<&Fresh> = fresh.collect();
    for one in &fresh {
        job.sources.put(one.source, &one.pixels);
    }
    fresh
}

/// A row for each step.
fn lines(steps: &[Painted], names: &Names) -> String {
    let head = ["step", "priority", "kind", "source", "fresh"].map(str::to_owned);
    let rows = steps.iter().zip(1..).map(|(step, number)| {
        [
            number.to_string(),
            step.priority.to_string(),
            describe::kind(&step.layer).to_owned(),
            names.column(&step.layer),
            pictures(step, names),
        ]
    });
    let rows: Vec<_> = [head].into_iter().chain(rows).collect();
    table::lines(&rows, &[0, 1, 3])
}

/// The sources that were fresh, with their files.
fn pictures(step: &Painted, names: &Names) -> String {
    let all = step.fresh.iter().map(|fresh| {
        let (source, file) = (names.short(fresh.source), files::input(&fresh.file));
        format!("{source} = {file}")
    });
    let all: Vec<String> = all.collect();
    match all.is_empty() {
        true => "-".to_owned(),
        false => all.join(", "),
    }
}
