//! What is lent to the library, between guards or as allocations of just their length, and a call that plays on it.
use ours::surface::Show;
use reading::{packed, Answer};
use std::hint::black_box;

/// What stands before and behind what is lent to be written.
const GUARD: usize = 16;
pub const GUARD_WORD: u32 = 0xDEAD_BEEF;
pub const GUARD_BYTE: u8 = 0xA7;

/// How buffers are lent: between guards, or as allocations of just their length, so that a tool that
/// watches memory sees an access past the end.
#[derive(Clone, Copy, PartialEq, Eq)]
pub enum Lent {
    Guarded,
    Exact,
}

/// Guards around these, where there are to be any.
pub fn guarded<T: Copy>(lent: Lent, guard: T, values: &[T]) -> Box<[T]> {
    let guards = &[guard; GUARD][..guard_of(lent)];
    [guards, values, guards].concat().into_boxed_slice()
}

/// What stands between the guards.
pub fn inner<T>(of: &mut [T], lent: Lent) -> &mut [T] {
    let (guard, end) = (guard_of(lent), of.len() - guard_of(lent));
    &mut of[guard..end]
}

fn guard_of(lent: Lent) -> usize {
    match lent {
        Lent::Guarded => GUARD,
        Lent::Exact => 0,
    }
}

/// What is lent to be read, in allocations of just its length.
pub struct Read {
    rundown: Box<[u8]>,
    width: u32,
    height: u32,
    table: Box<[u32]>,
    pool: Box<[u32]>,
}

impl Read {
    pub fn of(show: Show) -> Read {
        Read {
            rundown: show.rundown.into(),
            width: show.width,
            height: show.height,
            table: show.table.into(),
            pool: show.pool.into(),
        }
    }

    pub fn show(&self) -> Show<'_> {
        Show {
            rundown: &self.rundown,
            width: self.width,
            height: self.height,
            table: &self.table,
            pool: &self.pool,
        }
    }

    /// Whether all of it is as it was.
    pub fn kept(self, show: Show) -> bool {
        // the compiler may not take for granted that what is lent to be read stays
        let after = black_box(self);
        *after.rundown == *show.rundown && *after.table == *show.table && *after.pool == *show.pool
    }
}

/// What a call left.
pub struct Played {
    pub answer: u64,
    pub canvas: Vec<u32>,
    scratch: [Vec<u8>; 2],
    /// What scratch held before.
    filled: u8,
    /// Whether all that is not lent to be written is as it was.
    kept: bool,
}

impl Played {
    /// Plays the show by this call on this canvas, with scratch slices of these lengths.
    pub fn of(
        call: impl FnOnce(Show, &mut [u32], &mut [u8], &mut [u8]) -> u64,
        show: Show,
        canvas: &[u32],
        lengths: [usize; 2],
        lent: Lent,
        filled: u8,
    ) -> Played {
        let mut canvas = guarded(lent, GUARD_WORD, canvas);
        let scratch = |n| pattern(filled).take(n).collect::<Vec<u8>>();
        let [mut a, mut b] = lengths.map(|n| guarded(lent, GUARD_BYTE, &scratch(n)));
        let read = Read::of(show);
        let answer = call(
            read.show(),
            inner(&mut canvas, lent),
            inner(&mut a, lent),
            inner(&mut b, lent),
        );
        // the compiler may not take for granted that it stays, where a call is lent it to be read
        let (mut canvas, [a, b]) = black_box((canvas, [a, b]));
        let kept = read.kept(show)
            && stands(lent, &canvas, GUARD_WORD)
            && [&a, &b].iter().all(|s| stands(lent, s, GUARD_BYTE));
        Played {
            answer,
            canvas: inner(&mut canvas, lent).to_vec(),
            scratch: [a, b].map(|mut s| inner(&mut s, lent).to_vec()),
            filled,
            kept,
        }
    }

    /// What of the call is not as the reading and kash-ui have it.
    pub fn wrong(&self, answer: Answer, wanted: &[u32]) -> Option<String> {
        if self.answer != packed(answer) {
            return Some(format!("the answer is {:X}", self.answer));
        }
        if let Some(at) = (0..wanted.len()).find(|i| self.canvas[*i] != wanted[*i]) {
            let (ours, rust) = (self.canvas[at], wanted[at]);
            return Some(format!("pixel {at}: ours {ours:08X}, the Rust {rust:08X}"));
        }
        self.changed(answer)
    }

    /// What changed that is to stay; on a refusal scratch, too.
    pub fn changed(&self, answer: Answer) -> Option<String> {
        if !self.kept {
            return Some("something that is not to be written changed".into());
        }
        if answer.is_err() && !self.has_scratch() {
            return Some("scratch changed at a refusal".into());
        }
        None
    }

    /// Whether scratch is as it was.
    pub fn has_scratch(&self) -> bool {
        let untouched = |s: &Vec<u8>| s.iter().zip(pattern(self.filled)).all(|(v, was)| *v == was);
        self.scratch.iter().all(untouched)
    }
}

/// What scratch holds before a call: no byte is as the one beside it.
fn pattern(filled: u8) -> impl Iterator<Item = u8> {
    (0..).map(move |i: usize| filled ^ i as u8)
}

/// Whether the guards stand.
fn stands<T: PartialEq>(lent: Lent, of: &[T], guard: T) -> bool {
    let guards = guard_of(lent);
    let [front, back] = [&of[..guards], &of[of.len() - guards..]];
    front.iter().chain(back).all(|v| *v == guard)
}
