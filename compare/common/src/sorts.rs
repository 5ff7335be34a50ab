//! Counting cases, the ones that differ, and the edges that they lie at.
use crate::{Sum, Verdict};

/// A sort of case that every run has to meet.
pub type Class<C> = (&'static str, fn(&C) -> bool);

#[derive(Default)]
pub struct Tally {
    pub cases: u64,
    pub accepted: u64,
    pub differ: u64,
    /// The first difference that was met, in words.
    pub first: Option<String>,
    pub classes: Vec<u64>,
}

impl Tally {
    pub fn count<C>(&mut self, case: &C, classes: &[Class<C>], accepted: bool) {
        self.cases += 1;
        self.accepted += accepted as u64;
        self.classes.resize(classes.len(), 0);
        for (hits, (_, is)) in self.classes.iter_mut().zip(classes) {
            *hits += is(case) as u64;
        }
    }

    pub fn differs(&mut self, say: impl FnOnce() -> String) {
        self.differ += 1;
        self.first.get_or_insert_with(say);
    }

    /// Prints how many there were, of what.
    fn say(&self, what: &str) {
        println!(
            "{} {what}, {} accepted, {} refused; {} differ",
            self.cases,
            self.accepted,
            self.cases - self.accepted,
            self.differ
        );
    }

    pub fn show_first(&self) {
        if let Some(first) = &self.first {
            println!("    {first}");
        }
    }

    /// Says what was met: no sort may be missed, and nothing may differ.
    pub fn judged<C>(&self, what: &str, classes: &[Class<C>], verdict: &mut Verdict) {
        self.say(what);
        verdict.check(self.show(classes));
        verdict.check(self.differ == 0);
    }

    /// The same where sorts may be missed, but not all cases.
    pub fn watched<C>(&self, what: &str, classes: &[Class<C>], verdict: &mut Verdict) {
        self.say(what);
        self.show(classes);
        verdict.check(self.cases > 0 && self.differ == 0);
    }

    /// Prints how often each sort was met: whether none was missed.
    fn show<C>(&self, classes: &[Class<C>]) -> bool {
        self.show_first();
        for (hits, (name, _)) in self.classes.iter().zip(classes) {
            println!("    {hits:>9} {name}");
        }
        !self.classes.is_empty() && self.classes.iter().all(|hits| *hits > 0)
    }
}

impl Sum for Tally {
    fn add(&mut self, other: Tally) {
        self.cases += other.cases;
        self.accepted += other.accepted;
        self.differ += other.differ;
        self.first = self.first.take().or(other.first);
        let most = self.classes.len().max(other.classes.len());
        self.classes.resize(most, 0);
        for (mine, others) in self.classes.iter_mut().zip(other.classes) {
            *mine += others;
        }
    }
}

/// Whether fewer than `each` are kept of a sort that the case is of.
pub fn wanted<C>(case: &C, classes: &[Class<C>], met: &mut [usize], each: usize) -> bool {
    let of: Vec<usize> = (0..classes.len()).filter(|k| classes[*k].1(case)).collect();
    let wanted = of.iter().any(|k| met[*k] < each);
    if wanted {
        of.iter().for_each(|k| met[*k] += 1);
    }
    wanted
}
