//! The numbers of sources.
use std::fmt;

/// A source's number: its place among the [`Sources`](crate::Sources), counted from 0. It is a type
/// of its own, so that it cannot be taken for a column, a side or a priority.
///
/// [`Sources::push`](crate::Sources::push) answers it. Whatever takes one also takes a plain
/// number, since a stored rundown and a plan on paper have numbers.
///
/// ```
/// use tiglostrema::{Layer, Source, SourceId, Sources, StraightCopy};
///
/// let mut sources = Sources::new();
/// let studio = sources.push(Source::new(2, 1, &[0x112233, 0x445566])?)?;
/// assert_eq!(studio, SourceId::new(0));
/// assert_eq!(StraightCopy::new(studio, 4, 5), StraightCopy::new(0, 4, 5));
/// assert_eq!(Layer::from(StraightCopy::new(7, 4, 5)).source(), Some(SourceId::new(7)));
/// # Ok::<(), tiglostrema::Refusal>(())
/// ```
#[derive(Clone, Copy, Debug, PartialEq, Eq, PartialOrd, Ord, Hash)]
pub struct SourceId(u32);

impl SourceId {
    /// The source of that number.
    #[must_use]
    pub const fn new(number: u32) -> SourceId {
        SourceId(number)
    }

    /// The number.
    #[must_use]
    pub const fn number(self) -> u32 {
        self.0
    }

    /// The number as an index.
    #[must_use]
    pub const fn index(self) -> usize {
        self.0 as usize
    }
}

// The only conversion from an integer: with a second one `StraightCopy::new(0, 4, 5)` would not say
// which integer its 0 is.
impl From<u32> for SourceId {
    fn from(number: u32) -> SourceId {
        SourceId(number)
    }
}

impl From<SourceId> for u32 {
    fn from(source: SourceId) -> u32 {
        source.0
    }
}

/// The number.
impl fmt::Display for SourceId {
    fn fmt(&self, f: &mut fmt::Formatter<'_>) -> fmt::Result {
        fmt::Display::fmt(&self.0, f)
    }
}
