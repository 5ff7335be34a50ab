//! Box passes, secure frames and glass panels: cases, and how either side paints them.
pub mod case;
mod classes;
pub mod frame;
pub mod glass;
mod pass;
