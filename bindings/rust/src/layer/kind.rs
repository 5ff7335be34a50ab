//! The kinds by their numbers.
use std::fmt;

/// What kind a [`Layer`](crate::Layer) is of.
#[derive(Clone, Copy, Debug, PartialEq, Eq, Hash)]
#[non_exhaustive]
pub enum Kind {
    /// A [`Fill`](crate::Fill).
    Fill = 1,
    /// A [`Stroke`](crate::Stroke).
    Stroke = 2,
    /// A [`Shadow`](crate::Shadow).
    Shadow = 3,
    /// A [`Glass`](crate::Glass) panel.
    Glass = 4,
    /// A [`StraightCopy`](crate::StraightCopy).
    Straight = 5,
    /// A [`ScaledCopy`](crate::ScaledCopy).
    Scaled = 6,
    /// A [`Genie`](crate::Genie).
    Genie = 7,
    /// A secure [`Frame`](crate::Frame).
    Frame = 8,
}

impl Kind {
    /// The kinds that this version knows, in the order of their numbers. It is a slice, since a later
    /// version may know more.
    pub const ALL: &'static [Kind] = &[
        Kind::Fill,
        Kind::Stroke,
        Kind::Shadow,
        Kind::Glass,
        Kind::Straight,
        Kind::Scaled,
        Kind::Genie,
        Kind::Frame,
    ];

    /// The kind of a number, as it stands in a block; none if this version does not know it.
    ///
    /// ```
    /// use tiglostrema::Kind;
    ///
    /// assert_eq!(Kind::from_number(5), Some(Kind::Straight));
    /// assert_eq!(Kind::from_number(0), None);
    /// ```
    #[must_use]
    pub fn from_number(number: u8) -> Option<Kind> {
        let mut known = Kind::ALL.iter().copied();
        known.find(|kind| kind.number() == number)
    }

    /// The kind's number, as it stands in a block.
    #[must_use]
    pub const fn number(self) -> u8 {
        self as u8
    }
}

impl fmt::Display for Kind {
    fn fmt(&self, f: &mut fmt::Formatter<'_>) -> fmt::Result {
        f.pad(match self {
            Kind::Fill => "fill",
            Kind::Stroke => "stroke",
            Kind::Shadow => "shadow",
            Kind::Glass => "glass",
            Kind::Straight => "straight copy",
            Kind::Scaled => "scaled copy",
            Kind::Genie => "genie",
            Kind::Frame => "frame",
        })
    }
}
