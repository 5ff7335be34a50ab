//! What this crate says of its own refusals, beyond the cause.
use crate::{Cause, Glass, SourceId, MAX_SIDE, MAX_SOURCES};
use std::fmt;

/// What was wrong with a call that this crate refused before the library was asked.
#[derive(Clone, Copy, Debug, PartialEq, Eq, Hash)]
pub(crate) enum Detail {
    /// No picture has these sides.
    Sides(Picture, Size),
    /// A picture of this size has another number of pixels.
    Pixels(Picture, Size, usize),
    /// A picture of this size, so many bytes a pixel, has another number of bytes.
    Bytes(Picture, Size, usize, usize),
    /// Every source number is taken, so many by sources that were removed.
    NoNumber(usize),
    /// There is no source of that number; the table goes so far.
    Absent(SourceId, usize),
    /// The source of that number was removed.
    Removed(SourceId),
    /// A frame ends at this column; the canvas has so many.
    Wide(u32, u32),
    /// The float of that name is out of its range.
    Float(&'static str),
    /// The integer of that name is.
    Integer(&'static str),
    /// The blur with these bits is none that a glass panel may have.
    Blur(u32),
    /// An entry of a displacement table is above what its bezel allows.
    Bend(Bend),
}

/// An entry of a displacement table, and the bezel that it does not suit. The floats are kept as their
/// bits, since refusals are compared.
#[derive(Clone, Copy, Debug, PartialEq, Eq, Hash)]
pub(crate) struct Bend {
    pub(crate) entry: usize,
    pub(crate) value: u32,
    pub(crate) bezel: u32,
}

/// A width and a height.
pub(crate) type Size = (u32, u32);

/// A picture that may have a wrong size.
#[derive(Clone, Copy, Debug, PartialEq, Eq, Hash)]
pub(crate) enum Picture {
    Canvas,
    Source,
}

impl Picture {
    const fn cause(self) -> Cause {
        match self {
            Picture::Canvas => Cause::CanvasSize,
            Picture::Source => Cause::SourceTable,
        }
    }

    const fn name(self) -> &'static str {
        match self {
            Picture::Canvas => "canvas",
            Picture::Source => "source",
        }
    }
}

impl Detail {
    /// The cause that the library has for it.
    pub(crate) const fn cause(self) -> Cause {
        match self {
            Detail::Sides(picture, _)
            | Detail::Pixels(picture, ..)
            | Detail::Bytes(picture, ..) => picture.cause(),
            Detail::NoNumber(_) => Cause::SourceTable,
            Detail::Absent(..) | Detail::Removed(_) => Cause::NoSuchSource,
            Detail::Wide(..) => Cause::FrameTooWide,
            Detail::Float(_) | Detail::Blur(_) => Cause::FloatRange,
            Detail::Integer(_) => Cause::IntegerRange,
            Detail::Bend(_) => Cause::Bend,
        }
    }
}

impl fmt::Display for Detail {
    fn fmt(&self, f: &mut fmt::Formatter<'_>) -> fmt::Result {
        match *self {
            Detail::Sides(picture, (w, h)) => {
                let name = picture.name();
                write!(
                    f,
                    "the {name} is {w} × {h} pixels, and a side has 1 to {MAX_SIDE}"
                )
            }
            Detail::Pixels(picture, (w, h), given) => {
                let (name, all) = (picture.name(), area((w, h)));
                write!(
                    f,
                    "pixels given for the {name}: {given}, not {w} × {h} = {all}"
                )
            }
            Detail::Bytes(picture, (w, h), each, given) => {
                let (name, all) = (picture.name(), area((w, h)) * each);
                write!(
                    f,
                    "bytes given for the {name}: {given}, not {w} × {h} × {each} = {all}"
                )
            }
            Detail::NoNumber(0) => write!(f, "all {MAX_SOURCES} source numbers are taken"),
            Detail::NoNumber(removed) => write!(
                f,
                "all {MAX_SOURCES} source numbers are taken, {removed} by removed sources; \
                 `replace` fills such a place"
            ),
            Detail::Absent(source, 0) => write!(f, "there is no source {source}, nor any other"),
            Detail::Absent(source, count) => {
                write!(f, "there is no source {source}, the last is {}", count - 1)
            }
            Detail::Removed(source) => write!(f, "source {source} was removed"),
            Detail::Float(name) => write!(f, "`{name}` is not finite or out of its range"),
            Detail::Blur(bits) => {
                let blur = f32::from_bits(bits);
                write!(f, "the blur is {blur}, and a glass panel's is 0 to 64")
            }
            Detail::Integer(name) => write!(f, "`{name}` is out of its range"),
            Detail::Bend(bend) => write!(f, "{bend}"),
            Detail::Wide(end, width) => write!(
                f,
                "the frame ends at column {end}, and the canvas is {width} wide"
            ),
        }
    }
}

impl fmt::Display for Bend {
    fn fmt(&self, f: &mut fmt::Formatter<'_>) -> fmt::Result {
        let [value, bezel] = [self.value, self.bezel].map(f32::from_bits);
        let (entry, most) = (self.entry, Glass::most_displacement(bezel));
        write!(
            f,
            "`displacement[{entry}]` is {value}, and a bezel of {bezel} allows at most {most}"
        )
    }
}

/// How many pixels a picture of this size has.
pub(crate) const fn area((width, height): Size) -> usize {
    width as usize * height as usize
}

/// That a picture may have these sides.
pub(crate) fn sides(picture: Picture, (width, height): Size) -> Result<(), Detail> {
    let side = 1..=MAX_SIDE;
    if side.contains(&width) && side.contains(&height) {
        Ok(())
    } else {
        Err(Detail::Sides(picture, (width, height)))
    }
}

/// That a picture may have these sides, and has that many pixels.
pub(crate) fn pixels(picture: Picture, size: Size, given: usize) -> Result<(), Detail> {
    sides(picture, size)?;
    if given == area(size) {
        Ok(())
    } else {
        Err(Detail::Pixels(picture, size, given))
    }
}
