//! What a refused call answers.
use crate::detail::Detail;
use crate::Cause;
use std::error::Error;
use std::fmt;

/// What a refused call answers: the [`Cause`], and where it lies. A refused call has changed
/// nothing: no canvas, no rundown, no source, no scratch.
///
/// ```
/// use tiglostrema::{Cause, Fill, Color, Rect, Rundown};
///
/// let mut rundown = Rundown::new();
/// let endless = Fill::new(Rect::new(0.0, 0.0, f32::INFINITY, 4.0), Color::WHITE);
/// let refusal = rundown.add(10, endless).unwrap_err();
/// assert_eq!((refusal.cause(), refusal.priority()), (Cause::FloatRange, Some(10)));
/// let words = "block 0, priority 10: `rect` is not finite or out of its range (cause 6)";
/// assert_eq!(refusal.to_string(), words);
/// assert!(rundown.is_empty());
/// ```
///
/// Sizes, lengths and source numbers that a call is given are tested by this crate. Such a refusal
/// has the cause that the library has for it, and its words have the numbers:
///
/// ```
/// use tiglostrema::{Cause, Source};
///
/// let refusal = Source::new(1920, 1, &[0; 1919]).unwrap_err();
/// assert_eq!(refusal.cause(), Cause::SourceTable);
/// let words = "pixels given for the source: 1919, not 1920 × 1 = 1920 (cause 2)";
/// assert_eq!(refusal.to_string(), words);
/// ```
#[derive(Clone, Copy, Debug, PartialEq, Eq, Hash)]
pub struct Refusal {
    cause: Cause,
    beside: u32,
    /// Whether `beside` is a block.
    in_a_block: bool,
    /// The priority of the layer, where the call knows it.
    priority: Option<u16>,
    /// What this crate knows beyond the cause.
    detail: Option<Detail>,
}

impl Refusal {
    /// A cause with what stands beside it, as the library answers it.
    pub(crate) const fn new(cause: Cause, beside: u32) -> Refusal {
        Refusal {
            cause,
            beside,
            in_a_block: cause.is_of_a_block(),
            priority: None,
            detail: None,
        }
    }

    /// The same in another block.
    pub(crate) const fn in_block(self, block: u32) -> Refusal {
        Refusal {
            beside: block,
            ..self
        }
    }

    /// The same of a call that was given no block, so that what stands beside the cause is none's number.
    pub(crate) const fn in_no_block(self) -> Refusal {
        Refusal {
            in_a_block: false,
            ..self
        }
    }

    /// The same of a layer with that priority.
    pub(crate) const fn of_layer(self, priority: u16) -> Refusal {
        Refusal {
            priority: Some(priority),
            ..self
        }
    }

    /// The same with what this crate knows beyond the cause.
    pub(crate) const fn with(self, detail: Option<Detail>) -> Refusal {
        Refusal { detail, ..self }
    }

    /// Why the call was refused.
    #[must_use]
    pub const fn cause(&self) -> Cause {
        self.cause
    }

    /// The block that the cause lies in, counted from 0 in the order of the bytes; none where the
    /// cause is of no single block. A layer that [`Rundown::add`](crate::Rundown::add) refuses
    /// counts as the block behind the last one, wherever it would stand; one that
    /// [`Rundown::replace`](crate::Rundown::replace) refuses, as the block that stays in its place.
    ///
    /// [`Cause::NoSuchSource`] lies in a block where a layer names the source, and in none where
    /// the call names it, as that of [`stain`](crate::stain) does; so does [`Cause::FloatRange`] where
    /// [`dearest`](crate::dearest) is given the blur.
    #[must_use]
    pub const fn block(&self) -> Option<usize> {
        if self.in_a_block {
            Some(self.beside as usize)
        } else {
            None
        }
    }

    /// The priority of the layer that was refused, or that is not there. The functions of
    /// [`raw`](crate::raw) and [`Rundown::from_bytes`](crate::Rundown::from_bytes) know none: their
    /// bytes may be anything.
    ///
    /// ```
    /// use tiglostrema::{play, Canvas, Rundown, Scratch, Sources, StraightCopy};
    ///
    /// let mut rundown = Rundown::new();
    /// rundown.add(40, StraightCopy::new(3, 0, 0))?;
    /// let mut canvas = Canvas::new(4, 2)?;
    /// let refusal = play(&rundown, &mut canvas, &Sources::new(), &mut Scratch::new()).unwrap_err();
    /// if let Some(priority) = refusal.priority() {
    ///     // The show goes on without it. It may have covered a private source: ask for the stain.
    ///     rundown.remove(priority)?;
    /// }
    /// assert_eq!(play(&rundown, &mut canvas, &Sources::new(), &mut Scratch::new()), Ok(0));
    /// # Ok::<(), tiglostrema::Refusal>(())
    /// ```
    #[must_use]
    pub const fn priority(&self) -> Option<u16> {
        self.priority
    }

    /// The name of the field that is out of its range, where [`Rundown::add`](crate::Rundown::add),
    /// [`replace`](crate::Rundown::replace) or [`update`](crate::Rundown::update) refused a layer for
    /// it; of several the first. Each layer's page has the ranges. With [`Cause::Bend`] it is
    /// `displacement`, and the words say which entry. It is `blur` where [`dearest`](crate::dearest)
    /// refused that.
    #[must_use]
    pub const fn field(&self) -> Option<&'static str> {
        match self.detail {
            Some(Detail::Float(name) | Detail::Integer(name)) => Some(name),
            Some(Detail::Bend(_)) => Some("displacement"),
            Some(Detail::Blur(_)) => Some("blur"),
            _ => None,
        }
    }

    /// The number that the library answers beside the cause: a block, for a full rundown the
    /// count of its layers, otherwise 0.
    #[must_use]
    pub const fn beside(&self) -> u32 {
        self.beside
    }
}

impl From<Detail> for Refusal {
    fn from(detail: Detail) -> Refusal {
        Refusal {
            cause: detail.cause(),
            beside: 0,
            in_a_block: false,
            priority: None,
            detail: Some(detail),
        }
    }
}

impl fmt::Display for Refusal {
    fn fmt(&self, f: &mut fmt::Formatter<'_>) -> fmt::Result {
        match (self.block(), self.priority) {
            (Some(block), Some(priority)) => write!(f, "block {block}, priority {priority}: ")?,
            (Some(block), None) => write!(f, "block {block}: ")?,
            (None, Some(priority)) => write!(f, "priority {priority}: ")?,
            (None, None) => {}
        }
        match self.detail {
            Some(detail) => write!(f, "{detail}")?,
            None => write!(f, "{}", self.cause)?,
        }
        if self.cause == Cause::RundownFull {
            write!(f, ", {} are held", self.beside)?;
        }
        write!(f, " (cause {})", self.cause.number())
    }
}

impl Error for Refusal {}
