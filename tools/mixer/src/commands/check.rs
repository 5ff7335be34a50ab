//! `mixer check`: would this rundown be played?
use super::Command;
use crate::cli::args::{many, once, Args};
use crate::cli::failure::Failure;
use crate::files;
use crate::job::{Job, SCRATCH};
use crate::names::NAMES;
use crate::sources::{PICTURE, SIZES};
use show::count;

pub const COMMAND: Command = Command {
    name: "check",
    summary: "says whether a rundown would be played, or why not",
    help: include_str!("check.help"),
    options: &[once("--canvas"), many(PICTURE), many(SIZES), NAMES, SCRATCH],
    run,
};

fn run(args: Args) -> Result<String, Failure> {
    let job: Job = Job::read(args, None, &[])?;
    let layers = count::of(job.play()?.layers, "layer");
    Ok(format!("{}: right, {layers}\n", files::input(&job.path)))
}
