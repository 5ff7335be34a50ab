//! What a comparing program is asked for.
use std::io;
use std::path::{Path, PathBuf};
use std::process::ExitCode;

pub enum Command {
    /// A sample, or all that there is to compare.
    Compare {
        all: bool,
        seed: u64,
    },
    /// So many, in buffers of just their length: for a tool that watches memory.
    Exact {
        count: u64,
        seed: u64,
    },
    Record {
        file: PathBuf,
        seed: u64,
    },
}

impl Command {
    /// `[sample | all] [SEED]`, `exact COUNT [SEED]` or `record FILE [SEED]`; nothing where the words are
    /// others.
    pub fn read() -> Option<Command> {
        let mut words = std::env::args().skip(1);
        let name = words.next();
        let of = match name.as_deref() {
            Some("exact" | "record") => Some(words.next()?),
            _ => None,
        };
        let seed = words.next().map_or(Ok(1), |w| w.parse()).ok()?;
        let command = match (name.as_deref(), of) {
            (None | Some("sample"), _) => Command::Compare { all: false, seed },
            (Some("all"), _) => Command::Compare { all: true, seed },
            (Some("exact"), Some(count)) => Command::Exact {
                count: count.parse().ok()?,
                seed,
            },
            (_, Some(file)) => Command::Record {
                file: PathBuf::from(file),
                seed,
            },
            _ => return None,
        };
        words.next().is_none().then_some(command)
    }
}

/// The program of this name, by what it does where it is asked to compare, to compare in exact buffers and to record.
pub fn run(
    name: &str,
    compare: impl FnOnce(bool, u64) -> ExitCode,
    exact: impl FnOnce(u64, u64) -> ExitCode,
    record: impl FnOnce(&Path, u64) -> io::Result<usize>,
) -> ExitCode {
    match Command::read() {
        Some(Command::Compare { all, seed }) => compare(all, seed),
        Some(Command::Exact { count, seed }) => exact(count, seed),
        Some(Command::Record { file, seed }) => recorded(&file, record(&file, seed)),
        None => {
            eprintln!("usage: {name} [sample | all] [SEED] | {name} exact COUNT [SEED] | {name} record FILE [SEED]");
            ExitCode::from(2)
        }
    }
}

/// Says how many records were written, or why none.
pub fn recorded(file: &Path, written: io::Result<usize>) -> ExitCode {
    match written {
        Ok(n) => {
            println!("{}: {n} records", file.display());
            ExitCode::SUCCESS
        }
        Err(e) => {
            eprintln!("{}: {e}", file.display());
            ExitCode::FAILURE
        }
    }
}
