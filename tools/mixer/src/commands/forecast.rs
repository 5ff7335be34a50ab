//! `mixer forecast`: what a play will need, before there is any picture.
use super::list::JSON;
use super::Command;
use crate::cli::args::{many, once, Args};
use crate::cli::failure::Failure;
use crate::job::Job;
use crate::names::NAMES;
use crate::sources::{Given, PICTURE, SIZES};
use crate::{files, table};
use show::{boxes, count, describe, forecast_json};
use tiglostrema::{Forecast, Rundown};

pub const COMMAND: Command = Command {
    name: "forecast",
    summary: "says what memory a play needs, and where its layers paint",
    help: include_str!("forecast.help"),
    options: &[once("--canvas"), many(PICTURE), many(SIZES), NAMES, JSON],
    run,
};

fn run(mut args: Args) -> Result<String, Failure> {
    let json = args.flag(JSON.name);
    let job: Job<Given> = Job::read(args, None, &[])?;
    let forecast = job.forecast()?;
    let rundown = job.layers()?;
    Ok(match json {
        true => forecast_json(&rundown, &forecast),
        false => format!(
            "{}{}",
            totals(&job, &forecast),
            lines(&job, &rundown, &forecast)
        ),
    })
}

fn totals(job: &Job<Given>, forecast: &Forecast) -> String {
    let (name, (w, h)) = (files::input(&job.path), job.canvas);
    let layers = count::of(forecast.layers(), "layer");
    let bytes = count::of(forecast.scratch(), "byte");
    let cells = count::of(forecast.cells() as usize, "cell");
    format!(
        "{name}: {layers} on {w}x{h}\n\
         each scratch slice needs {bytes}\n\
         glass panels work on {cells}\n"
    )
}

/// A row for each block.
fn lines(job: &Job<Given>, rundown: &Rundown, forecast: &Forecast) -> String {
    let head = ["block", "priority", "kind", "source", "box"].map(str::to_owned);
    let names = &job.sources.names;
    let blocks = rundown.iter().zip(boxes::forecast(forecast)).enumerate();
    let rows = blocks.map(|(block, ((priority, layer), area))| {
        [
            block.to_string(),
            priority.to_string(),
            describe::kind(&layer).to_owned(),
            names.column(&layer),
            boxes::show(Some(area)),
        ]
    });
    let rows: Vec<_> = [head].into_iter().chain(rows).collect();
    table::lines(&rows, &[0, 1, 3])
}
