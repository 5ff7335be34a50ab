//! The causes of a refusal, by their numbers.
use std::fmt;

/// Why a call was refused. Each cause has a number, which is the same in every language that
/// calls the library.
#[derive(Clone, Copy, Debug, PartialEq, Eq, Hash)]
#[non_exhaustive]
pub enum Cause {
    /// 1: the canvas has a side outside 1 to 4096, or not width × height pixels.
    CanvasSize,
    /// 2: there are more than 16 sources, one has a side outside 1 to 4096, or the pool is not
    /// as long as their sizes say.
    SourceTable,
    /// 3: the rundown is no whole number of blocks, or has more than 256.
    RundownLength,
    /// 4: the sum at the block's end is not that of its bytes.
    Check,
    /// 5: the kind, the tag or the paint is unknown, or a byte or flag that the kind does not use
    /// is not zero.
    Form,
    /// 6: a float is not finite or out of its range.
    FloatRange,
    /// 7: an integer is out of its range.
    IntegerRange,
    /// 8: an earlier block has the same priority.
    DuplicatePriority,
    /// 9: there is no source of that number.
    NoSuchSource,
    /// 10: a frame ends beyond the canvas's width.
    FrameTooWide,
    /// 11: one of the two scratch slices is too short for this glass panel.
    ScratchTooShort,
    /// 12: 256 layers are held, or the buffer has no room for another.
    RundownFull,
    /// 13: no layer has that priority.
    NoSuchPriority,
    /// 14: a box pass has a side outside 1 to 4096, a window wider than 65536, or a slice that is
    /// not 3 × width × height bytes.
    BoxPass,
    /// 15: an entry of a glass panel's displacement table is above 1.6 × bezel; see
    /// [`Glass::displacement`](crate::Glass::displacement).
    Bend,
    /// 16: no layer is above the last painted priority, so that a playing in steps is at its end.
    NoNextLayer,
    /// A number that this version of the crate does not know. [`from_number`](Cause::from_number)
    /// answers it for no other.
    Other(u32),
}

impl Cause {
    /// The causes that this version knows, in the order of their numbers. It is a slice, since a later
    /// version may know more.
    pub const ALL: &'static [Cause] = &[
        Cause::CanvasSize,
        Cause::SourceTable,
        Cause::RundownLength,
        Cause::Check,
        Cause::Form,
        Cause::FloatRange,
        Cause::IntegerRange,
        Cause::DuplicatePriority,
        Cause::NoSuchSource,
        Cause::FrameTooWide,
        Cause::ScratchTooShort,
        Cause::RundownFull,
        Cause::NoSuchPriority,
        Cause::BoxPass,
        Cause::Bend,
        Cause::NoNextLayer,
    ];

    /// The cause of a number.
    ///
    /// ```
    /// use tiglostrema::Cause;
    ///
    /// assert_eq!(Cause::from_number(6), Cause::FloatRange);
    /// assert_eq!(Cause::FloatRange.number(), 6);
    /// ```
    #[must_use]
    pub fn from_number(number: u32) -> Cause {
        let mut known = Cause::ALL.iter().copied();
        known
            .find(|cause| cause.number() == number)
            .unwrap_or(Cause::Other(number))
    }

    /// The cause's number.
    #[must_use]
    pub const fn number(self) -> u32 {
        match self {
            Cause::CanvasSize => 1,
            Cause::SourceTable => 2,
            Cause::RundownLength => 3,
            Cause::Check => 4,
            Cause::Form => 5,
            Cause::FloatRange => 6,
            Cause::IntegerRange => 7,
            Cause::DuplicatePriority => 8,
            Cause::NoSuchSource => 9,
            Cause::FrameTooWide => 10,
            Cause::ScratchTooShort => 11,
            Cause::RundownFull => 12,
            Cause::NoSuchPriority => 13,
            Cause::BoxPass => 14,
            Cause::Bend => 15,
            Cause::NoNextLayer => 16,
            Cause::Other(number) => number,
        }
    }

    /// Whether this cause lies in one block of the rundown.
    pub(crate) const fn is_of_a_block(self) -> bool {
        matches!(self.number(), 4..=11 | 15)
    }
}

impl fmt::Display for Cause {
    fn fmt(&self, f: &mut fmt::Formatter<'_>) -> fmt::Result {
        f.write_str(match self {
            Cause::CanvasSize => {
                "the canvas has a side outside 1 to 4096, or not width × height pixels"
            }
            Cause::SourceTable => {
                "there are more than 16 sources, one has a side outside 1 to 4096, \
                 or the pool is not as long as their sizes say"
            }
            Cause::RundownLength => {
                "the rundown is no whole number of blocks of 512 bytes, or has more than 256"
            }
            Cause::Check => "the check at the block's end is wrong",
            Cause::Form => "the kind, tag or paint is unknown, or an unused byte or flag is set",
            Cause::FloatRange => "a float is not finite or out of range",
            Cause::IntegerRange => "an integer is out of range",
            Cause::DuplicatePriority => "an earlier block has the same priority",
            Cause::NoSuchSource => "there is no source of that number",
            Cause::FrameTooWide => "the frame ends beyond the canvas's width",
            Cause::ScratchTooShort => "the scratch is too short for this glass panel",
            Cause::RundownFull => "there is no room for another layer",
            Cause::NoSuchPriority => "no layer has that priority",
            Cause::BoxPass => {
                "the box pass has a side outside 1 to 4096, a window wider than 65536, \
                 or a slice that is not 3 × width × height bytes"
            }
            Cause::Bend => "an entry of the displacement table is above 1.6 × bezel",
            Cause::NoNextLayer => "no layer is above the last painted priority",
            Cause::Other(_) => "the library refused the call",
        })
    }
}
