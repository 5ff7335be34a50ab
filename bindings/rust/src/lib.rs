//! A picture mixer's painted layers.
//!
//! A sign-language service shows its interpreter beside the programme. A *rundown* lists the
//! layers of such a picture: panels, shadows, copies of sources, frames. [`play`] paints them on a
//! [`Canvas`] in ascending priority.
//!
//! The painting is done by `libtiglostrema.a`, in which every function is proved to do what is
//! written of it, for every input:
//!
//! - every call finishes, and a refused call changes nothing; it says why, by a [`Cause`];
//! - the picture is the one that its definition says, pixel by pixel;
//! - which source may colour which pixel follows from the rundown alone: a source's pixels never
//!   show outside its [`Stain`];
//! - so do the memory that a play needs and the pixels that each layer may change: a [`Forecast`] tells
//!   them before; and the most that any glass panel of a blur can need is that of the [`Dearest`] one.
//!
//! This crate is the safe Rust over it. What it adds itself, the typed layers and the buffers, is
//! tested and not proved.
//!
//! # Example
//!
//! Two pictures side by side; priority 10 lies above priority 9.
//!
//! ```
//! use tiglostrema::{play, Canvas, Rundown, Scratch, Source, Sources, StraightCopy};
//!
//! let mut sources = Sources::new();
//! let studio = sources.push(Source::new(2, 1, &[0x112233, 0x445566])?)?;
//! let interpreter = sources.push(Source::new(1, 1, &[0xFFFFFF])?)?;
//!
//! let mut rundown = Rundown::new();
//! rundown.add(10, StraightCopy::new(interpreter, 1, 0))?;
//! rundown.add(9, StraightCopy::new(studio, 0, 0))?;
//!
//! let mut canvas = Canvas::new(4, 2)?;
//! let layers = play(&rundown, &mut canvas, &sources, &mut Scratch::new())?;
//! assert_eq!(layers, 2);
//! assert_eq!(canvas.pixels()[..4], [0x112233, 0xFFFFFF, 0, 0]);
//! # Ok::<(), tiglostrema::Refusal>(())
//! ```
//!
//! # The layers
//!
//! | layer | paints |
//! |---|---|
//! | [`Fill`] | a rectangle with round corners, in a colour or a gradient |
//! | [`Stroke`] | its outline |
//! | [`Shadow`] | its soft shadow |
//! | [`Glass`] | a panel of frosted glass |
//! | [`StraightCopy`] | a source, pixel for pixel |
//! | [`ScaledCopy`] | a source, scaled |
//! | [`Genie`] | a source on its way into a point |
//! | [`Frame`] | a secure frame |
//!
//! Each is made by its `new` and changed by its `with_` methods, and each may have a clip. A `with_`
//! method answers a changed copy; the compiler warns where that is dropped:
//!
//! ```compile_fail
//! #![deny(unused_must_use)]
//! use tiglostrema::{Color, Fill, Rect};
//!
//! let fill = Fill::new(Rect::new(0.0, 0.0, 4.0, 4.0), Color::WHITE);
//! fill.with_radius(2.0); // `let fill = fill.with_radius(2.0);` is meant
//! ```
//!
//! # Frame by frame
//!
//! Keep the [`Sources`], the [`Canvas`] and the [`Scratch`]. For each frame write the sources that
//! move ([`Sources::pixels_mut`]), put the layers that move in their new places
//! ([`Rundown::update`]), and play. [`raw`] has the same over slices of your own. A program that may
//! not allocate on air asks for the [`forecast`] of its rundowns before; where these are not known yet,
//! for the [`dearest`] panel of the least blur that they may have. Where a play takes longer than a
//! camera's frame, a [`Playing`] paints layer by layer, and the newest picture is written in between.
//!
//! # Threads
//!
//! The library has no state, and every type is [`Send`] and [`Sync`]. Threads may share a
//! [`Rundown`] and its [`Sources`] and play at once, each on a [`Canvas`] and with a [`Scratch`] of its
//! own. `include/tiglostrema.h` says how much stack a call needs, which the 2 MiB of a Rust thread
//! hold many times over, and that floats have to round to nearest and keep denormals, as Rust has it;
//! code in C that sets flush-to-zero in a thread has to set it back.
#![deny(missing_docs)]
#![warn(unsafe_op_in_unsafe_fn)]
#![warn(
    clippy::missing_errors_doc,
    clippy::must_use_candidate,
    clippy::return_self_not_must_use
)]

mod block;
mod canvas;
mod cause;
mod color;
mod dearest;
mod detail;
mod ffi;
mod field;
mod forecast;
mod geom;
mod layer;
mod paint;
mod play;
mod playing;
pub mod raw;
mod refusal;
mod rgb;
mod rundown;
mod scratch;
mod short;
mod source;
mod source_id;
mod sources;
mod stain;
mod table;
mod tag;
mod version;

/// Its program is run with the other examples.
#[cfg(doctest)]
#[doc = include_str!("../README.md")]
struct Readme;

pub use canvas::{Canvas, MAX_SIDE};
pub use cause::Cause;
pub use color::Color;
pub use dearest::{dearest, Dearest};
pub use forecast::{forecast, Forecast};
pub use geom::{IRect, Point, Rect};
pub use layer::{
    Fill, Frame, Genie, Glass, Kind, Layer, ScaledCopy, Shadow, StraightCopy, Stroke,
    DISPLACEMENT_LEN,
};
pub use paint::Paint;
pub use play::play;
pub use playing::Playing;
pub use raw::{box_h, box_v};
pub use refusal::Refusal;
pub use rundown::{Iter, Rundown, MAX_LAYERS};
pub use scratch::Scratch;
pub use source::Source;
pub use source_id::SourceId;
pub use sources::Sources;
pub use stain::{stain, Stain};
pub use table::{SourceTable, MAX_SOURCES};
pub use tag::SecurityTag;
pub use version::version;
