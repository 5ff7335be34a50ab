//! The copies: cases, and how either side makes them.
pub mod case;
pub mod cases;
mod classes;
