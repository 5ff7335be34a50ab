//! Playing in steps, 02's request Seven: a first call makes all the tests, and each further one paints a layer.
use crate::block::{priority_of, Body};
use crate::layer::Layer;
use crate::play::Show;
use crate::rundown::{blocks_of, body_of};
use crate::{Answer, Cause};

impl Show<'_> {
    /// What the first call answers: the count of layers, or the cause with what stands beside it.
    pub fn begin(&self) -> Answer {
        self.answer()
    }

    /// The layer that a step paints, whose priority it answers. The tests come first, again on what this call is lent.
    pub fn step(&self, last: Option<u16>) -> Result<Layer, (Cause, usize)> {
        self.begin()?;
        self.next(last)
    }

    /// The same of a rundown that has passed the tests: of the layers above the last painted priority the one with the
    /// least, and after none the lowest of all.
    pub fn next(&self, last: Option<u16>) -> Result<Layer, (Cause, usize)> {
        let is_above = |body: &&Body| last.is_none_or(|last| priority_of(body) > last);
        let above = blocks_of(self.rundown).map(body_of).filter(is_above);
        let next = above.min_by_key(|body| priority_of(body));
        next.map(Layer::of).ok_or((Cause::Next, 0))
    }
}

/// The last painted priority as C hands it over: what no priority can be is none.
pub fn last_painted(word: u32) -> Option<u16> {
    u16::try_from(word).ok()
}
