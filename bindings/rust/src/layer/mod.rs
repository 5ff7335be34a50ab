//! The eight kinds of layer.
mod fill;
mod frame;
mod genie;
mod glass;
mod kind;
mod scaled;
mod shadow;
mod straight;
mod stroke;

pub use fill::Fill;
pub use frame::Frame;
pub use genie::Genie;
pub use glass::{Glass, DISPLACEMENT_LEN};
pub use kind::Kind;
pub use scaled::ScaledCopy;
pub use shadow::Shadow;
pub use straight::StraightCopy;
pub use stroke::Stroke;

use crate::block::{Reader, Writer, BODY, KIND};
use crate::{IRect, SourceId};

/// One layer of a rundown.
#[derive(Clone, Copy, Debug, PartialEq)]
#[non_exhaustive]
#[must_use = "a layer paints nothing until it is added"]
pub enum Layer {
    /// A filled rectangle with round corners.
    Fill(Fill),
    /// Its outline.
    Stroke(Stroke),
    /// Its soft shadow.
    Shadow(Shadow),
    /// A panel of frosted glass.
    Glass(Glass),
    /// A source, pixel for pixel.
    Straight(StraightCopy),
    /// A source, scaled.
    Scaled(ScaledCopy),
    /// A source on its way into a point.
    Genie(Genie),
    /// A secure frame.
    Frame(Frame),
}

/// How a kind of layer stands in a block.
trait InBlock: Copy {
    const KIND: Kind;

    fn write(&self, block: &mut Writer);

    /// The layer of a block of this kind; none if a tag or a paint is unknown.
    fn read(block: Reader<'_>) -> Option<Self>;
}

/// Runs `$body` with `$layer` bound to the layer of whichever kind it is.
macro_rules! each {
    ($of:expr, $layer:ident => $body:expr) => {
        match $of {
            Layer::Fill($layer) => $body,
            Layer::Stroke($layer) => $body,
            Layer::Shadow($layer) => $body,
            Layer::Glass($layer) => $body,
            Layer::Straight($layer) => $body,
            Layer::Scaled($layer) => $body,
            Layer::Genie($layer) => $body,
            Layer::Frame($layer) => $body,
        }
    };
}

impl Layer {
    /// What kind it is of.
    #[must_use]
    pub const fn kind(&self) -> Kind {
        match self {
            Layer::Fill(_) => Kind::Fill,
            Layer::Stroke(_) => Kind::Stroke,
            Layer::Shadow(_) => Kind::Shadow,
            Layer::Glass(_) => Kind::Glass,
            Layer::Straight(_) => Kind::Straight,
            Layer::Scaled(_) => Kind::Scaled,
            Layer::Genie(_) => Kind::Genie,
            Layer::Frame(_) => Kind::Frame,
        }
    }

    /// The pixels that it is kept to. A frame has a clip, and ignores it.
    #[must_use]
    pub const fn clip(&self) -> IRect {
        each!(self, layer => layer.clip)
    }

    /// The source that it copies, if it is a copy.
    #[must_use]
    pub const fn source(&self) -> Option<SourceId> {
        match self {
            Layer::Straight(copy) => Some(copy.source),
            Layer::Scaled(copy) => Some(copy.source),
            Layer::Genie(copy) => Some(copy.source),
            _ => None,
        }
    }

    /// The bytes of its block, without the check behind them.
    pub(crate) fn encode(&self, priority: u16) -> [u8; BODY] {
        let mut block = Writer::new(self.kind().number(), priority);
        block.clip(self.clip());
        each!(self, layer => layer.write(&mut block));
        block.into_bytes()
    }

    /// The layer of a block; none if its kind, tag or paint is unknown.
    pub(crate) fn decode(block: Reader<'_>) -> Option<Layer> {
        let kind = block.u8(KIND);
        macro_rules! first_of {
            ($($kind:ident)*) => { $(if kind == $kind::KIND.number() { return $kind::read(block).map(Layer::from); })* };
        }
        first_of!(Fill Stroke Shadow Glass StraightCopy ScaledCopy Genie Frame);
        None
    }
}

macro_rules! from {
    ($($kind:ident $case:ident)*) => { $(
        impl From<$kind> for Layer {
            fn from(layer: $kind) -> Layer {
                Layer::$case(layer)
            }
        }
    )* };
}

from!(Fill Fill Stroke Stroke Shadow Shadow Glass Glass StraightCopy Straight ScaledCopy Scaled Genie Genie Frame Frame);
