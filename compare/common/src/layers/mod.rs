//! Blocks of a rundown, field by field: blocks that pass their tests, faults to be put into them, layers
//! as blocks, and layers as kash-ui paints them.
pub mod draw;
pub mod faults;
pub mod fields;
pub mod kash;
pub mod write;
