//! Kind 8.
use super::{InBlock, Kind};
use crate::block::{Reader, Writer, BORDER, FLAGS, HEIGHT, TAG, WIDTH, X, Y};
use crate::{IRect, SecurityTag};

const TINT: u8 = 1;
const XRAY: u8 = 2;

/// A window's secure frame: a border and a title bar of 28 rows in the colour of the window's tag,
/// and a veil over what it surrounds (`composite_secure_frame`).
///
/// A frame has to end within the canvas's width; rows below the canvas are left out. Its pixels
/// have FF in their top byte, until another layer is painted over them. It ignores clips.
///
/// ```
/// use tiglostrema::{play, Canvas, Frame, Rundown, Scratch, SecurityTag, Sources};
///
/// let mut rundown = Rundown::new();
/// rundown.add(1, Frame::new(2, 2, 60, 60, SecurityTag::BlueWork))?;
///
/// let mut canvas = Canvas::new(64, 64)?;
/// play(&rundown, &mut canvas, &Sources::new(), &mut Scratch::new())?;
/// assert_eq!(canvas.pixel(1, 1), Some(0));
/// assert_eq!(canvas.pixel(2, 2), Some(0xFF1A73E8));
/// assert_eq!(canvas.pixel(32, 40), Some(0xFF121418));
/// # Ok::<(), tiglostrema::Refusal>(())
/// ```
#[derive(Clone, Copy, Debug, PartialEq)]
#[non_exhaustive]
#[must_use = "a layer paints nothing until it is added, and a `with_` method answers a changed copy"]
pub struct Frame {
    /// The column of its left edge, 0 to 16384.
    pub x: u32,
    /// The row of its top edge, 0 to 16384.
    pub y: u32,
    /// Its width, 0 to 4096.
    pub width: u32,
    /// Its height, 0 to 4096.
    pub height: u32,
    /// The border's width, 0 to 4096; it is never narrower than 4.
    pub border: u32,
    /// The tag, which settles its colours.
    pub tag: SecurityTag,
    /// Whether the veil has the tag's tint instead of being dark.
    pub tint: bool,
    /// Whether the veil has the border's colour, so that everyone sees whose window it is. It wins
    /// over `tint`.
    pub xray: bool,
    /// Ignored; it has to be in the range of clips.
    pub clip: IRect,
}

impl Frame {
    /// A frame with a dark veil and the narrowest border.
    pub fn new(x: u32, y: u32, width: u32, height: u32, tag: SecurityTag) -> Frame {
        Frame {
            x,
            y,
            width,
            height,
            border: 4,
            tag,
            tint: false,
            xray: false,
            clip: IRect::EVERYWHERE,
        }
    }

    /// Sets the border's width.
    pub fn with_border(self, border: u32) -> Frame {
        Frame { border, ..self }
    }

    /// Sets whether the veil has the tag's tint.
    pub fn with_tint(self, tint: bool) -> Frame {
        Frame { tint, ..self }
    }

    /// Sets whether the veil has the border's colour.
    pub fn with_xray(self, xray: bool) -> Frame {
        Frame { xray, ..self }
    }
}

impl InBlock for Frame {
    const KIND: Kind = Kind::Frame;

    fn write(&self, block: &mut Writer) {
        let tint = if self.tint { TINT } else { 0 };
        let xray = if self.xray { XRAY } else { 0 };
        block.u8(FLAGS, tint | xray);
        block.u32(X, self.x);
        block.u32(Y, self.y);
        block.u32(WIDTH, self.width);
        block.u32(HEIGHT, self.height);
        block.u32(BORDER, self.border);
        block.u8(TAG, self.tag.number());
    }

    fn read(block: Reader<'_>) -> Option<Frame> {
        let flags = block.u8(FLAGS);
        Some(Frame {
            x: block.u32(X),
            y: block.u32(Y),
            width: block.u32(WIDTH),
            height: block.u32(HEIGHT),
            border: block.u32(BORDER),
            tag: SecurityTag::from_number(block.u8(TAG))?,
            tint: flags & TINT != 0,
            xray: flags & XRAY != 0,
            clip: block.clip(),
        })
    }
}
