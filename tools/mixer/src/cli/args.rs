//! The words behind a command's name: options, most of them with values, and plain words.
use super::failure::Failure;
use crate::words::shown;
use show::suggest::did_you_mean;
use std::ffi::{OsStr, OsString};
use std::os::unix::ffi::OsStrExt;

/// An option.
pub struct Opt {
    /// With its hyphens, as `--canvas`.
    pub name: &'static str,
    /// A second spelling, as `-o`; or the same once more.
    pub short: &'static str,
    /// Whether it may be given more than once.
    pub many: bool,
    /// Whether a value belongs to it.
    pub value: bool,
}

/// An option that may be given once.
pub const fn once(name: &'static str) -> Opt {
    Opt {
        name,
        short: name,
        many: false,
        value: true,
    }
}

/// An option without a value.
pub const fn flag(name: &'static str) -> Opt {
    Opt {
        value: false,
        ..once(name)
    }
}

/// An option that may be given more than once.
pub const fn many(name: &'static str) -> Opt {
    Opt {
        name,
        short: name,
        many: true,
        value: true,
    }
}

/// Where the result goes.
pub const OUT: Opt = Opt {
    name: "--output",
    short: "-o",
    many: false,
    value: true,
};

/// What was given, taken out piece by piece.
pub struct Args {
    options: Vec<(&'static str, OsString)>,
    plain: std::collections::VecDeque<OsString>,
}

impl Args {
    /// Reads the words. `--name value` and `--name=value` mean the same; behind `--` every word is plain.
    pub fn parse(
        words: impl IntoIterator<Item = OsString>,
        known: &[Opt],
    ) -> Result<Args, Failure> {
        let mut args = Args {
            options: Vec::new(),
            plain: Default::default(),
        };
        let mut words = words.into_iter();
        while let Some(word) = words.next() {
            if word == "--" {
                args.plain.extend(words);
                break;
            }
            if !word.as_bytes().starts_with(b"-") || word == "-" {
                args.plain.push_back(word);
                continue;
            }
            args.option(&word, &mut words, known)?;
        }
        Ok(args)
    }

    /// Takes an option, whose value stands behind `=` or is the next word.
    fn option(
        &mut self,
        word: &OsStr,
        words: &mut impl Iterator<Item = OsString>,
        known: &[Opt],
    ) -> Result<(), Failure> {
        // A value may be a file's name, which need not be UTF-8.
        let mut parts = word.as_bytes().splitn(2, |byte| *byte == b'=');
        let name = &*String::from_utf8_lossy(parts.next().unwrap_or_default());
        let inline = parts.next().map(|v| OsStr::from_bytes(v).to_owned());
        let option = find(name, known)?;
        let value = match (option.value, inline) {
            (true, inline) => inline
                .or_else(|| words.next())
                .ok_or_else(|| Failure::usage(format!("`{name}` needs a value")))?,
            (false, None) => OsString::new(),
            (false, Some(_)) => return Err(Failure::usage(format!("`{name}` takes no value"))),
        };
        if !option.many && self.options.iter().any(|(n, _)| *n == option.name) {
            return Err(Failure::usage(format!("`{name}` is given twice")));
        }
        self.options.push((option.name, value));
        Ok(())
    }

    /// The value of an option, which stays.
    pub fn peek(&self, name: &str) -> Option<&OsStr> {
        let option = self.options.iter().find(|(n, _)| *n == name)?;
        Some(&option.1)
    }

    /// The value of an option that may be left out.
    pub fn optional(&mut self, name: &str) -> Option<OsString> {
        let place = self.options.iter().position(|(n, _)| *n == name)?;
        Some(self.options.remove(place).1)
    }

    /// Whether an option without a value is given.
    pub fn flag(&mut self, name: &str) -> bool {
        self.optional(name).is_some()
    }

    /// The value of an option that the command cannot do without.
    pub fn required(&mut self, name: &str) -> Result<OsString, Failure> {
        let words = || format!("`{name}` is missing");
        self.optional(name).ok_or_else(|| Failure::usage(words()))
    }

    /// All the options' values, in their order, by name.
    pub fn all(&mut self, names: &[&str]) -> Vec<(&'static str, OsString)> {
        let (taken, left) = std::mem::take(&mut self.options)
            .into_iter()
            .partition(|(name, _)| names.contains(name));
        self.options = left;
        taken
    }

    /// The next plain word.
    pub fn plain(&mut self, what: &str) -> Result<OsString, Failure> {
        let words = || format!("{what} is missing");
        self.plain
            .pop_front()
            .ok_or_else(|| Failure::usage(words()))
    }

    /// Nothing may be left over.
    pub fn finish(mut self) -> Result<(), Failure> {
        match self.plain.pop_front() {
            Some(word) => Err(Failure::usage(format!("unexpected `{}`", shown(&word)))),
            None => Ok(()),
        }
    }
}

fn find<'a>(name: &str, known: &'a [Opt]) -> Result<&'a Opt, Failure> {
    let is_it = |o: &&Opt| o.name == name || o.short == name;
    known.iter().find(is_it).ok_or_else(|| {
        let names: Vec<&str> = known.iter().map(|o| o.name).collect();
        let near = did_you_mean(name, &names);
        let name = shown(OsStr::new(name));
        Failure::usage(format!("unknown option `{name}`{near}"))
    })
}

#[cfg(test)]
mod tests {
    use super::*;

    const KNOWN: [Opt; 4] = [once("--canvas"), many("--source"), OUT, flag("--json")];

    fn parse(line: &str) -> Result<Args, Failure> {
        Args::parse(line.split_whitespace().map(OsString::from), &KNOWN)
    }

    fn words(line: &str) -> String {
        parse(line).err().expect("a usage error").to_string()
    }

    #[test]
    fn both_spellings_of_a_value() {
        let mut args = parse("a.rundown --canvas=4x2 --source x=1.png -o out").unwrap();
        assert_eq!(args.required("--canvas").unwrap(), "4x2");
        assert_eq!(args.optional("--output").unwrap(), "out");
        let sources = args.all(&["--source"]);
        assert_eq!(sources, [("--source", OsString::from("x=1.png"))]);
        assert_eq!(args.plain("a rundown").unwrap(), "a.rundown");
        args.finish().unwrap();
    }

    #[test]
    fn options_without_a_value() {
        let mut args = parse("--json a.rundown").unwrap();
        assert!(args.flag("--json") && !args.flag("--json"));
        assert_eq!(args.plain("a rundown").unwrap(), "a.rundown");
        assert_eq!(words("--json=yes"), "mixer: `--json` takes no value");
        assert_eq!(words("--json --json"), "mixer: `--json` is given twice");
    }

    #[test]
    fn behind_two_hyphens_all_is_plain() {
        let mut args = parse("-- --canvas -o").unwrap();
        assert_eq!(args.plain("x").unwrap(), "--canvas");
        assert_eq!(args.plain("x").unwrap(), "-o");
        assert!(args.plain("a file").is_err());
    }

    #[test]
    fn what_is_wrong_is_said() {
        assert_eq!(
            words("--canvs 4x2"),
            "mixer: unknown option `--canvs`; did you mean `--canvas`?"
        );
        assert_eq!(words("--canvas"), "mixer: `--canvas` needs a value");
        assert_eq!(words("-o a -o b"), "mixer: `-o` is given twice");
        let mut args = parse("a b").unwrap();
        args.plain("a").unwrap();
        assert_eq!(
            args.finish().err().unwrap().to_string(),
            "mixer: unexpected `b`"
        );
    }
}
