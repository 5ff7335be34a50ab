//! The command `mixer`: rundowns for people.
mod cli;
mod commands;
mod engine;
mod explain;
mod files;
mod fresh;
mod hatch;
mod interpreter;
mod job;
mod names;
mod progress;
mod rundowns;
mod size;
mod sources;
mod table;
mod words;

use cli::Ending;
use std::io::{self, Write};
use std::process::ExitCode;

fn main() -> ExitCode {
    match cli::run(std::env::args_os().skip(1).collect()) {
        Ok(ending) => say(&ending),
        Err(failure) => {
            complain(&failure.to_string());
            ExitCode::from(failure.status())
        }
    }
}

fn say(ending: &Ending) -> ExitCode {
    let words = ending.words.as_bytes();
    let said = match ending.aside {
        true => io::stderr().write_all(words),
        false => io::stdout().write_all(words),
    };
    match said {
        // A reader that has gone away, as `head` does, is no failure.
        Err(error) if error.kind() != io::ErrorKind::BrokenPipe => {
            complain(&format!("mixer: cannot write the answer: {error}"));
            ExitCode::FAILURE
        }
        _ => ExitCode::from(ending.status),
    }
}

/// Says why on standard error. If it is closed or full the exit status still tells.
fn complain(words: &str) {
    let _ = writeln!(io::stderr(), "{words}");
}
