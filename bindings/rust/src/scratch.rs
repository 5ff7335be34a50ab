//! The memory that glass panels are worked out in.
use crate::{Dearest, Forecast, MAX_SIDE};

/// The two slices that glass panels are worked out in. Keep one and lend it to every
/// [`play`](crate::play) or [`Playing`](crate::Playing): where it is too short it grows to what the
/// [`forecast`](crate::forecast) says that the rundown needs, and never shrinks. A program that may not
/// allocate on air makes it long enough before.
#[derive(Clone, Default)]
pub struct Scratch {
    a: Vec<u8>,
    b: Vec<u8>,
}

impl Scratch {
    /// An empty scratch, which grows when a panel needs it.
    #[must_use]
    pub fn new() -> Scratch {
        Scratch::default()
    }

    /// A scratch that need not grow for canvases up to this size, whatever the rundown: three bytes a
    /// pixel. A panel's window is cut to the canvas, and has no more cells than pixels; where every panel
    /// has a blur of 2.5 or more it has far fewer, and [`for_dearest`](Scratch::for_dearest) serves.
    #[must_use]
    pub fn for_canvas(width: u32, height: u32) -> Scratch {
        let [width, height] = [width, height].map(|side| side.min(MAX_SIDE) as usize);
        Scratch::of(3 * width * height)
    }

    /// A scratch that need not grow for the rundown of that forecast, and is no longer than that. Where
    /// a studio has several rundowns, it takes the forecast that needs the most.
    #[must_use]
    pub fn for_forecast(forecast: &Forecast) -> Scratch {
        Scratch::of(forecast.scratch())
    }

    /// A scratch that need not grow on that canvas for any rundown whose panels all have that blur or a
    /// greater one, and is no longer than that. Where several blurs are allowed, it is the least of them
    /// that [`dearest`](crate::dearest) is to be asked for.
    #[must_use]
    pub fn for_dearest(dearest: &Dearest) -> Scratch {
        Scratch::of(dearest.scratch())
    }

    /// Two slices of this length.
    fn of(len: usize) -> Scratch {
        let [a, b] = [len; 2].map(|len| vec![0; len]);
        Scratch { a, b }
    }

    /// The length of each slice.
    #[must_use]
    pub fn len(&self) -> usize {
        self.a.len()
    }

    /// Whether nothing has been reserved yet.
    #[must_use]
    pub fn is_empty(&self) -> bool {
        self.a.is_empty()
    }

    /// Makes each slice at least so long.
    pub(crate) fn grow(&mut self, len: usize) {
        for slice in [&mut self.a, &mut self.b] {
            if slice.len() < len {
                slice.resize(len, 0);
            }
        }
    }

    pub(crate) fn slices(&mut self) -> (&mut [u8], &mut [u8]) {
        (&mut self.a, &mut self.b)
    }
}
