//! `mixer make`: a show's text becomes a rundown.
use super::Command;
use crate::cli::args::{Args, OUT};
use crate::cli::failure::Failure;
use crate::files;
use show::{count, report, report_warnings};
use std::io::{self, Write};

pub const COMMAND: Command = Command {
    name: "make",
    summary: "makes a rundown of a show's text",
    help: include_str!("make.help"),
    options: &[OUT],
    run,
};

fn run(mut args: Args) -> Result<String, Failure> {
    let out = args.required(OUT.name)?;
    let path = args.plain("the show's text")?;
    args.finish()?;
    files::apart(&[&path], Some(&out))?;
    let text = files::read_text(&path)?;
    let file = files::input(&path);
    let made = show::make(&text).map_err(|problems| {
        let words = report(&file, &text, &problems);
        let count = count::of(problems.len(), "problem");
        Failure::Report(format!("{words}{count}, nothing written"))
    })?;
    let warnings = report_warnings(&file, &text, &made.warnings);
    // Where nobody can read them, the show is made all the same.
    let _ = io::stderr().write_all(warnings.as_bytes());
    files::write(&out, made.rundown.as_bytes())?;
    Ok(format!(
        "{}: {}\n",
        files::output(&out),
        count::of(made.rundown.len(), "layer")
    ))
}

#[cfg(test)]
mod tests {
    use super::*;

    #[test]
    fn the_help_has_every_colour() {
        let help = COMMAND.help.split_whitespace();
        let words: Vec<&str> = help.map(|word| word.trim_end_matches([',', '.'])).collect();
        for name in show::colour::names() {
            assert!(words.contains(&name), "{name}");
        }
    }
}
