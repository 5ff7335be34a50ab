//! How a command ends that did not do what it was asked for, or has to warn.
use std::fmt;

#[derive(Debug)]
pub enum Failure {
    /// It was asked in a way that it does not know: exit status 2.
    Usage(String),
    /// It was refused, or a file is not there: exit status 1.
    Refused(String),
    /// A text is wrong: the report's lines name the file themselves. Exit status 1.
    Report(String),
    /// It was done, and the private source reaches the interpreter: exit status 3, by which a script can tell. The
    /// words are the command's answer.
    Reached(String),
}

impl Failure {
    /// The exit status of [`Failure::Reached`].
    pub const REACHED: u8 = 3;

    pub fn usage(words: impl Into<String>) -> Failure {
        Failure::Usage(words.into())
    }

    pub fn refused(words: impl Into<String>) -> Failure {
        Failure::Refused(words.into())
    }

    pub fn status(&self) -> u8 {
        match self {
            Failure::Usage(_) => 2,
            Failure::Refused(_) | Failure::Report(_) => 1,
            Failure::Reached(_) => Failure::REACHED,
        }
    }
}

impl fmt::Display for Failure {
    fn fmt(&self, f: &mut fmt::Formatter<'_>) -> fmt::Result {
        match self {
            Failure::Usage(words) | Failure::Refused(words) => write!(f, "mixer: {words}"),
            Failure::Report(words) | Failure::Reached(words) => f.write_str(words),
        }
    }
}
