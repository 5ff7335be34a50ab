//! Counting the cases of one function, and the answers that differ.
use common::Sum;
use std::fmt::{self, Debug};

/// An answer of either side, and when two are the same.
pub trait Answer: Copy + Debug {
    fn same(self, other: Self) -> bool;
}

macro_rules! by_value {
    ($($t:ty),*) => { $(impl Answer for $t {
        fn same(self, other: Self) -> bool { self == other }
    })* };
}

by_value!(bool, u8, u32, i32, i64, Pixel);

/// A pixel, or a colour as a word: written in hexadecimal.
#[derive(Clone, Copy, PartialEq)]
pub struct Pixel(pub u32);

impl Debug for Pixel {
    fn fmt(&self, f: &mut fmt::Formatter) -> fmt::Result {
        write!(f, "{:08X}", self.0)
    }
}

/// By bits, so 0 and -0 differ. A NaN is as good as any other: Rust leaves its bits open.
impl Answer for f32 {
    fn same(self, other: Self) -> bool {
        self.to_bits() == other.to_bits() || (self.is_nan() && other.is_nan())
    }
}

impl<A: Answer, const N: usize> Answer for [A; N] {
    fn same(self, other: Self) -> bool {
        self.iter().zip(other).all(|(a, b)| a.same(b))
    }
}

#[derive(Default)]
pub struct Tally {
    pub cases: u64,
    pub differ: u64,
    /// Cases in which Rust may give either zero: they are compared as numbers.
    pub open: u64,
    /// The first difference that was met, in words.
    pub first: Option<String>,
}

impl Tally {
    /// One case: `input` is only looked at where the answers differ.
    #[inline]
    pub fn check<A: Answer>(&mut self, ours: A, rust: A, input: impl Debug) {
        self.cases += 1;
        if !ours.same(rust) {
            self.differ += 1;
            self.first
                .get_or_insert_with(|| format!("{input:?}: ours {ours:?}, Rust {rust:?}"));
        }
    }
}

impl Sum for Tally {
    fn add(&mut self, other: Tally) {
        self.cases += other.cases;
        self.differ += other.differ;
        self.open += other.open;
        self.first = self.first.take().or(other.first);
    }
}

/// [`common::over`] with this count.
pub fn over(n: u64, case: impl Fn(u64, &mut Tally) + Sync) -> Tally {
    common::over(n, case)
}
