//! A layer's fields: each is asked for by its name, and what was never asked for is reported.
use crate::colour;
use crate::problem::Problem;
use crate::ranges::Numbers;
use crate::statement::{Statement, Word};
use crate::suggest::did_you_mean;
use tiglostrema::Color;

pub struct Fields<'a> {
    /// The number of the layer's block in what is reported: how many layers stand before it in the text.
    pub block: usize,
    /// The word that messages about the whole layer point at.
    head: Word<'a>,
    kind: &'a str,
    statements: Vec<Statement<'a>>,
    /// Every name that was asked for.
    known: Vec<&'static str>,
    problems: Vec<Problem>,
    warnings: Vec<Problem>,
}

/// What is wrong with a layer's fields, and what is odd about them.
pub struct Found {
    pub problems: Vec<Problem>,
    pub warnings: Vec<Problem>,
}

impl<'a> Fields<'a> {
    pub fn new(
        block: usize,
        head: Word<'a>,
        kind: &'a str,
        statements: Vec<Statement<'a>>,
    ) -> Fields<'a> {
        Fields {
            block,
            head,
            kind,
            statements,
            known: Vec::new(),
            problems: Vec::new(),
            warnings: Vec::new(),
        }
    }

    /// The values of a field; nothing where it is not given. A second one of the same name is a problem.
    pub fn take(&mut self, name: &'static str) -> Option<Statement<'a>> {
        self.known.push(name);
        let all = std::mem::take(&mut self.statements);
        let (found, others): (Vec<_>, _) = all.into_iter().partition(|s| s.name.text == name);
        self.statements = others;
        let mut found = found.into_iter();
        let first = found.next()?;
        for again in found {
            let words = format!("`{name}` is already given in line {}", first.name.line);
            self.problem(again.name, words);
        }
        Some(first)
    }

    pub fn problem(&mut self, word: Word<'_>, message: impl AsRef<str>) {
        self.problems.push(Problem::at(word, message));
    }

    /// A warning about a word, if there is one.
    pub fn warn_if(&mut self, word: Word<'_>, message: Option<String>) {
        self.warnings.extend(message.map(|m| Problem::at(word, m)));
    }

    /// A field that the layer cannot do without.
    pub fn missing(&mut self, usage: &str) {
        let words = format!("a {} layer needs `{usage}`", self.kind);
        self.problem(self.head, words);
    }

    /// Exactly N values, each read by `read`, which is told its place; a problem, and nothing, where they are
    /// others.
    fn read<const N: usize, T: Copy>(
        &mut self,
        field: &Statement<'a>,
        usage: &str,
        read: impl Fn(usize, &str) -> Result<T, String>,
    ) -> Option<[T; N]> {
        if field.values.len() != N {
            let words = format!("expected `{usage}`, found {} values", field.values.len());
            self.problem(field.name, words);
            return None;
        }
        self.each(&field.values, read)?.try_into().ok()
    }

    /// Every word read; a problem for each that cannot be, and nothing then.
    pub fn each<T>(
        &mut self,
        words: &[Word<'_>],
        read: impl Fn(usize, &str) -> Result<T, String>,
    ) -> Option<Vec<T>> {
        let mut values = Vec::with_capacity(words.len());
        for (place, word) in words.iter().enumerate() {
            match read(place, word.text) {
                Ok(value) => values.push(value),
                Err(why) => self.problem(*word, why),
            }
        }
        (values.len() == words.len()).then_some(values)
    }

    /// The ranges and names of a field's numbers.
    pub fn numbers<'n>(&self, name: &'n str, usage: &'n str) -> Numbers<'n> {
        Numbers::of(self.kind, name, usage)
    }

    /// Numbers of a field, each in its range: those given, or else `default`; 0 stands for what could not be read.
    pub fn floats<const N: usize>(
        &mut self,
        name: &'static str,
        usage: &str,
        default: Option<[f32; N]>,
    ) -> [f32; N] {
        let numbers = self.numbers(name, usage);
        let read = |place: usize, word: &str| numbers.float(place, word);
        self.values(name, usage, default, read, 0.0)
    }

    pub fn float(&mut self, name: &'static str, usage: &str, default: f32) -> f32 {
        self.floats(name, usage, Some([default]))[0]
    }

    /// Whole numbers of a field, as [`Fields::floats`].
    pub fn integers<T: TryFrom<i64> + Copy + Default, const N: usize>(
        &mut self,
        name: &'static str,
        usage: &str,
        default: Option<[T; N]>,
    ) -> [T; N] {
        let numbers = self.numbers(name, usage);
        // The ranges are narrower than the types.
        let held = |number| T::try_from(number).unwrap_or_default();
        let read = |place: usize, word: &str| numbers.whole(place, word).map(held);
        self.values(name, usage, default, read, T::default())
    }

    fn values<T: Copy, const N: usize>(
        &mut self,
        name: &'static str,
        usage: &str,
        default: Option<[T; N]>,
        read: impl Fn(usize, &str) -> Result<T, String>,
        unread: T,
    ) -> [T; N] {
        match self.take(name) {
            Some(field) => self.read(&field, usage, read).unwrap_or([unread; N]),
            None => default.unwrap_or_else(|| {
                self.missing(usage);
                [unread; N]
            }),
        }
    }

    /// `yes` or `no`; `no` where it is not given.
    pub fn flag(&mut self, name: &'static str) -> bool {
        let usage = format!("{name} yes");
        self.values(name, &usage, Some([false]), yes_or_no, false)[0]
    }

    /// A colour; `colour` may be spelt `color`.
    pub fn colour(&mut self, name: &'static str, default: Option<Color>) -> Color {
        let field = match self.take(name) {
            None if name == "colour" => self.take("color"),
            field => field,
        };
        match field {
            Some(field) => {
                let usage = format!("{name} #RRGGBBAA");
                let read = self.read(&field, &usage, |_, word| colour::read(word));
                read.map_or(Color::CLEAR, |[c]| c)
            }
            None => default.unwrap_or_else(|| {
                self.missing(&format!("{name} #RRGGBBAA"));
                Color::CLEAR
            }),
        }
    }

    /// What was given and never asked for is a problem, too.
    pub fn finish(mut self) -> Found {
        for statement in std::mem::take(&mut self.statements) {
            let name = statement.name.text;
            let near = did_you_mean(name, &self.known);
            let known = self.known.join(", ");
            let kind = self.kind;
            let words = if name.starts_with('#') {
                "a comment starts with //".to_owned()
            } else if name == "sources" {
                "`sources` stands before the first layer".to_owned()
            } else if near.is_empty() {
                format!("a {kind} layer has no field `{name}`; it has {known}")
            } else {
                format!("a {kind} layer has no field `{name}`{near}")
            };
            self.problem(statement.name, words);
        }
        Found {
            problems: self.problems,
            warnings: self.warnings,
        }
    }
}

fn yes_or_no(_: usize, word: &str) -> Result<bool, String> {
    match word {
        "yes" | "on" | "true" => Ok(true),
        "no" | "off" | "false" => Ok(false),
        _ => Err(format!("expected yes or no, found `{word}`")),
    }
}

#[cfg(test)]
mod tests {
    use super::*;
    use crate::statement::statements;

    fn fields(text: &str) -> Fields<'_> {
        of_kind("glass", text)
    }

    fn of_kind<'a>(kind: &'a str, text: &'a str) -> Fields<'a> {
        let mut all = statements(text);
        let head = all.remove(0).name;
        Fields::new(0, head, kind, all)
    }

    fn words(fields: Fields<'_>) -> Vec<String> {
        let problems = fields.finish().problems;
        problems.into_iter().map(|p| p.message).collect()
    }

    #[test]
    fn given_values_and_defaults() {
        let mut f = fields("layer 1 glass; rect 1 -2 3.5 4e2; on yes; colour white");
        assert_eq!(
            f.floats("rect", "rect X Y W H", None),
            [1.0, -2.0, 3.5, 400.0]
        );
        assert_eq!(f.float("radius", "radius R", 7.0), 7.0);
        assert!(f.flag("on"));
        assert!(!f.flag("off"));
        assert_eq!(f.colour("colour", None), Color::WHITE);
        assert!(words(f).is_empty());
    }

    #[test]
    fn the_other_spelling_of_colour() {
        let mut f = fields("layer; color black");
        assert_eq!(f.colour("colour", None), Color::BLACK);
        assert!(words(f).is_empty());
    }

    #[test]
    fn a_field_that_is_missing() {
        let mut f = fields("layer");
        f.floats::<1>("blur", "blur RADIUS", None);
        assert_eq!(words(f), ["a glass layer needs `blur RADIUS`"]);
    }

    #[test]
    fn too_few_values_and_words_that_are_no_numbers() {
        let mut f = fields("layer; rect 1 2 3; blur wide; spec nan; bezel 257");
        f.floats::<4>("rect", "rect X Y W H", None);
        f.float("blur", "blur RADIUS", 0.0);
        f.float("spec", "spec S", 0.0);
        f.float("bezel", "bezel WIDTH", 0.0);
        assert_eq!(
            words(f),
            [
                "expected `rect X Y W H`, found 3 values",
                "expected a number from 0 to 64, found `wide`",
                "expected a number from 0 to 1, found `nan`",
                "`bezel` takes 0 to 256, found `257`",
            ]
        );
        let mut f = of_kind("copy", "layer; at 0.5 16385; alpha 300; dim x");
        f.integers::<i32, 2>("at", "at X Y", None);
        f.integers::<u8, 1>("alpha", "alpha A", None);
        f.integers::<u8, 1>("dim", "dim D", None);
        assert_eq!(
            words(f),
            [
                "expected a whole number from -16384 to 16384, found `0.5`",
                "expected a whole number from -16384 to 16384, found `16385`",
                "expected a whole number from 0 to 255, found `300`",
                "expected a whole number from 0 to 255, found `x`",
            ]
        );
    }

    #[test]
    fn unknown_and_doubled_fields() {
        let mut f = fields("layer; blurr 3; hue 1; blur 2; blur 3; # note; sources a");
        assert_eq!(f.float("blur", "blur RADIUS", 0.0), 2.0);
        assert_eq!(
            words(f),
            [
                "`blur` is already given in line 1",
                "a glass layer has no field `blurr`; did you mean `blur`?",
                "a glass layer has no field `hue`; it has blur",
                "a comment starts with //",
                "`sources` stands before the first layer",
            ]
        );
    }
}
