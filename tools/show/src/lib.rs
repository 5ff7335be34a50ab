//! Shows for people: a show's text as a rundown, layers in words, and the boxes that layers paint in.
//!
//! The command `mixer` is made of it. Nothing here paints: blocks are written and tested by `tiglostrema`.
//!
//! ```
//! let text = "sources studio signer\n\
//!             layer 10 copy; source studio; at 0 0\n\
//!             layer 60 copy; source signer; at 920 220\n";
//! let made = show::make(text).expect("a right text");
//! let sizes = show::boxes::Sizes { canvas: Some((1280, 720)), sources: &[(1280, 720), (300, 400)] };
//! let boxes = show::boxes::of(&made.rundown, &sizes);
//! let boxes: Vec<String> = boxes.into_iter().map(show::boxes::show).collect();
//! assert_eq!(boxes, ["0,0 1280x720", "920,220 300x400"]);
//!
//! let problems = show::make("layer 10 fil").unwrap_err();
//! assert_eq!(problems[0].message, "there is no kind `fil`; did you mean `fill`?");
//! ```
#![warn(missing_docs)]
mod bend;
pub mod boxes;
pub mod colour;
pub mod count;
pub mod describe;
mod escape;
mod fields;
mod json;
mod layers;
mod make;
mod name;
pub mod number;
mod paint;
mod problem;
mod ranges;
mod statement;
mod stored;
pub mod suggest;
mod text;
pub mod values;
mod whole;
mod write;

pub use bend::torn;
pub use escape::shown;
pub use json::{dearest_json, forecast_json, json, steps_json};
pub use layers::{KINDS, TAGS};
pub use make::{make, Made};
pub use name::is_name;
pub use problem::{report, report_warnings, Problem};
pub use statement::Word;
pub use stored::stored;
pub use text::{is_text, parse, Entry, Show};
pub use write::write;
