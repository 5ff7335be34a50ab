//! `mixer text`: a rundown becomes a show's text again.
use super::Command;
use crate::cli::args::{Args, OUT};
use crate::cli::failure::Failure;
use crate::{files, rundowns};
use show::{count, report_warnings, Problem};
use std::io::{self, Write};
use tiglostrema::Layer;

pub const COMMAND: Command = Command {
    name: "text",
    summary: "gives a rundown's text back",
    help: include_str!("text.help"),
    options: &[OUT],
    run,
};

fn run(mut args: Args) -> Result<String, Failure> {
    let out = args.optional(OUT.name);
    let path = args.plain("the rundown")?;
    args.finish()?;
    files::apart(&[&path], out.as_deref())?;
    let layers = rundowns::layers(&path)?;
    let warnings = report_warnings(&files::input(&path), "", &torn(&layers));
    // Where nobody can read them, the text says the same.
    let _ = io::stderr().write_all(warnings.as_bytes());
    let text = show::write(layers.iter().copied());
    let Some(out) = out else {
        return Ok(text);
    };
    files::write(&out, text.as_bytes())?;
    Ok(format!(
        "{}: {}\n",
        files::output(&out),
        count::of(layers.len(), "layer")
    ))
}

/// A warning for each layer whose table does not suit its bezel: the text cannot be made before it is mended.
fn torn(layers: &[(u16, Layer)]) -> Vec<Problem> {
    let warning = |(block, (priority, layer)): (usize, &(u16, Layer))| {
        let why = show::torn(layer)?;
        Some(Problem::with_all(format!(
            "block {block}: the table of layer {priority} does not suit its bezel: {why}"
        )))
    };
    layers.iter().enumerate().filter_map(warning).collect()
}
