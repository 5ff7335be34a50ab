//! The painters of shapes: layers to be painted, and how either side paints them.
pub mod case;
mod cases;
mod classes;
