//! `mixer dearest`: the most that a glass panel of a blur can need, before there is any rundown.
use super::list::JSON;
use super::Command;
use crate::cli::args::{once, Args, Opt, OUT};
use crate::cli::failure::Failure;
use crate::{files, size, words};
use show::{count, dearest_json, number};

const BLUR: Opt = once("--blur");

pub const COMMAND: Command = Command {
    name: "dearest",
    summary: "says the most memory that a glass panel of a blur needs",
    help: include_str!("dearest.help"),
    options: &[once("--canvas"), BLUR, JSON, OUT],
    run,
};

fn run(mut args: Args) -> Result<String, Failure> {
    let canvas = size::option("--canvas", &args.required("--canvas")?)?;
    // Whether it is in its range is for the library to say, as it is of the canvas.
    let blur = args.required(BLUR.name)?;
    let blur = words::value(BLUR.name, &blur, "a number from 0 to 64", number::read)?;
    let (json, out) = (args.flag(JSON.name), args.optional(OUT.name));
    args.finish()?;
    let panel = tiglostrema::dearest(canvas.0, canvas.1, blur)
        .map_err(|refusal| Failure::refused(refusal.to_string()))?;
    if let Some(out) = &out {
        files::write(out, panel.block())?;
    }
    if json {
        return Ok(dearest_json(canvas, &panel));
    }
    let ((w, h), blur, need) = (canvas, number::show(blur), panel.scratch());
    let written = out.map_or_else(String::new, |out| {
        format!("{}: {}\n", files::output(&out), count::of(1, "layer"))
    });
    Ok(format!(
        "blur {blur} on {w}x{h}: at most {need} bytes in each scratch slice\n{written}"
    ))
}
