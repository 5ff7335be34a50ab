//! From the words of the command line to the command.
pub mod args;
pub mod failure;
mod help;
mod terminal;
mod wrap;

use crate::commands::{self, Command};
use crate::files;
use crate::words::shown;
use args::{Args, Opt, OUT};
use failure::Failure;
use show::suggest::did_you_mean;
use std::ffi::OsString;

/// What a command that was done has to say.
#[derive(Debug, PartialEq, Eq)]
pub struct Ending {
    pub words: String,
    pub status: u8,
    /// Whether the words go to standard error, since standard output is the command's file.
    pub aside: bool,
}

impl From<String> for Ending {
    fn from(words: String) -> Ending {
        Ending {
            words,
            status: 0,
            aside: false,
        }
    }
}

/// What the words ask for, done.
pub fn run(words: Vec<OsString>) -> Result<Ending, Failure> {
    let mut words = words.into_iter();
    let Some(first) = words.next() else {
        return Err(Failure::usage(format!(
            "no command is given\n\n{}",
            help::all()
        )));
    };
    let rest: Vec<OsString> = words.collect();
    match first.to_str() {
        Some("--version" | "-V") => match &rest[..] {
            [] => Ok(format!("mixer {}\n", env!("CARGO_PKG_VERSION")).into()),
            [word, ..] => Err(unexpected(word)),
        },
        Some("--help" | "-h" | "help") => match &rest[..] {
            [] => Ok(help::all().into()),
            [name] => Ok(help::fitted(find(name)?.help).into()),
            [_, word, ..] => Err(unexpected(word)),
        },
        _ => {
            let command = find(&first)?;
            if asks_for_help(&rest, command.options) {
                return Ok(help::fitted(command.help).into());
            }
            done(command, rest).map_err(|failure| with_hint(failure, command.name))
        }
    }
}

fn done(command: &Command, words: Vec<OsString>) -> Result<Ending, Failure> {
    let args = Args::parse(words, command.options)?;
    let aside = args.peek(OUT.name).is_some_and(files::is_output);
    let (words, status) = match (command.run)(args) {
        Err(Failure::Reached(words)) => (words, Failure::REACHED),
        said => (said?, 0),
    };
    Ok(Ending {
        words,
        status,
        aside,
    })
}

fn unexpected(word: &OsString) -> Failure {
    Failure::usage(format!("unexpected `{}`\nTry `mixer --help`.", shown(word)))
}

fn find(name: &OsString) -> Result<&'static Command, Failure> {
    let name = shown(name);
    let all = &commands::ALL;
    all.iter().find(|c| c.name == name).ok_or_else(|| {
        let names: Vec<&str> = all.iter().map(|c| c.name).collect();
        let near = did_you_mean(&name, &names);
        Failure::usage(format!(
            "there is no command `{name}`{near}\nTry `mixer --help`."
        ))
    })
}

/// Whether help is asked for. An option's value is no such word: a script that hands on `-h` for a source would take
/// the status of the help for an answer.
fn asks_for_help(words: &[OsString], known: &[Opt]) -> bool {
    let mut words = words.iter().take_while(|w| *w != "--");
    let takes_next = |w: &OsString| {
        known
            .iter()
            .any(|o| o.value && (*w == o.name || *w == o.short))
    };
    while let Some(word) = words.next() {
        if word == "--help" || word == "-h" {
            return true;
        }
        if takes_next(word) {
            words.next();
        }
    }
    false
}

fn with_hint(failure: Failure, command: &str) -> Failure {
    match failure {
        Failure::Usage(words) => Failure::Usage(format!("{words}\nTry `mixer {command} --help`.")),
        other => other,
    }
}

#[cfg(test)]
mod tests {
    use super::*;

    fn said(line: &str) -> Result<String, Failure> {
        let ending = run(line.split_whitespace().map(OsString::from).collect());
        ending.map(|ending| ending.words)
    }

    #[test]
    fn every_command_has_its_help() {
        for command in &commands::ALL {
            let help = said(&format!("{} --help", command.name)).unwrap();
            assert!(help.starts_with(&format!("Usage: mixer {}", command.name)));
            assert_eq!(said(&format!("help {}", command.name)).unwrap(), help);
            for option in command.options {
                assert!(
                    help.contains(option.name),
                    "{} {}",
                    command.name,
                    option.name
                );
            }
            assert!(said("--help").unwrap().contains(command.name));
        }
    }

    #[test]
    fn unknown_commands_are_usage_errors() {
        let failure = said("rendr").unwrap_err();
        assert_eq!(failure.status(), 2);
        assert!(failure.to_string().contains("did you mean `render`?"));
        assert_eq!(said("").unwrap_err().status(), 2);
        assert_eq!(said("list").unwrap_err().status(), 2);
    }

    #[test]
    fn a_value_asks_for_no_help() {
        assert_eq!(said("stain x --hide -h").unwrap_err().status(), 2);
        assert_eq!(said("list --canvas --help").unwrap_err().status(), 2);
        assert!(said("stain x --hide=-h -h").is_ok() && said("list --json -h").is_ok());
    }

    #[test]
    fn behind_two_hyphens_help_is_a_file() {
        assert_eq!(said("list -- --help").unwrap_err().status(), 1);
    }
}
