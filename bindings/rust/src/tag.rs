//! The colours of secure frames.

/// Whose window a [`Frame`](crate::Frame) surrounds; it settles the frame's colour.
///
/// ```
/// use tiglostrema::{play, Canvas, Frame, Rundown, Scratch, SecurityTag, Sources};
///
/// let mut rundown = Rundown::new();
/// for (i, tag) in SecurityTag::ALL.into_iter().enumerate() {
///     rundown.add(i as u16, Frame::new(i as u32, 0, 1, 1, tag))?;
/// }
/// let mut canvas = Canvas::new(7, 1)?;
/// play(&rundown, &mut canvas, &Sources::new(), &mut Scratch::new())?;
/// let colors = [0xE1E6F0, 0xC58AF9, 0x81C995, 0x1A73E8, 0xFA903E, 0xD93025, 0xF538A0];
/// assert_eq!(canvas.pixels(), colors.map(|color| 0xFF000000 | color));
/// # Ok::<(), tiglostrema::Refusal>(())
/// ```
#[derive(Clone, Copy, Debug, PartialEq, Eq, Hash)]
pub enum SecurityTag {
    /// Nearly white, `E1E6F0`.
    ObsidianAdmin = 0,
    /// Purple, `C58AF9`.
    PurpleVault = 1,
    /// Mint green, `81C995`.
    MintPersonal = 2,
    /// Blue, `1A73E8`.
    BlueWork = 3,
    /// Amber, `FA903E`.
    AmberUsb = 4,
    /// Red, `D93025`.
    RedUntrustedNet = 5,
    /// Magenta, `F538A0`.
    MagentaDisposable = 6,
}

impl SecurityTag {
    /// All seven, in the order of their numbers.
    pub const ALL: [SecurityTag; 7] = [
        SecurityTag::ObsidianAdmin,
        SecurityTag::PurpleVault,
        SecurityTag::MintPersonal,
        SecurityTag::BlueWork,
        SecurityTag::AmberUsb,
        SecurityTag::RedUntrustedNet,
        SecurityTag::MagentaDisposable,
    ];

    /// The tag of a number from 0 to 6.
    #[must_use]
    pub fn from_number(number: u8) -> Option<SecurityTag> {
        SecurityTag::ALL.get(usize::from(number)).copied()
    }

    /// The tag's number, 0 to 6.
    #[must_use]
    pub const fn number(self) -> u8 {
        self as u8
    }
}
