//! `mixer render`: the picture of a rundown.
use super::Command;
use crate::cli::args::{many, once, Args, OUT};
use crate::cli::failure::Failure;
use crate::files;
use crate::job::{Job, BACKGROUND};
use crate::names::NAMES;
use crate::sources::{PICTURE, SIZES};
use show::count;

pub const COMMAND: Command = Command {
    name: "render",
    summary: "renders a rundown into a picture",
    help: include_str!("render.help"),
    options: &[
        once("--canvas"),
        many(PICTURE),
        many(SIZES),
        NAMES,
        BACKGROUND,
        OUT,
    ],
    run,
};

fn run(mut args: Args) -> Result<String, Failure> {
    let out = args.required(OUT.name)?;
    let job: Job = Job::read(args, Some(&out), &[])?;
    let played = job.play()?;
    job.write(&out, played.pixels)?;
    let (w, h) = job.canvas;
    Ok(format!(
        "{}: {} on {w}x{h}\n",
        files::output(&out),
        count::of(played.layers, "layer")
    ))
}
