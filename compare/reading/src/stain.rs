//! The stain: the pixels that may depend on a hidden source.
use crate::boxes::Area;
use crate::layer::{Kind, Layer};
use crate::play::Show;

pub struct Stain {
    hidden: usize,
    /// Whether it holds the pixel, for each of the canvas.
    pub holds: Vec<bool>,
}

/// What a layer did to the stain.
#[derive(Clone, Copy, PartialEq, Eq, Debug)]
pub enum Effect {
    /// It shows the hidden source.
    Adds,
    /// An exact copy from another source. Whether a pixel of its box was stained.
    Clears {
        any: bool,
    },
    /// A glass whose window met the stain. Whether its box did not.
    Spreads {
        by_window_alone: bool,
    },
    /// A glass whose window did not meet it.
    Apart,
    Nothing,
}

impl Stain {
    pub fn empty(show: &Show, hidden: usize) -> Stain {
        Stain {
            hidden,
            holds: vec![false; show.canvas],
        }
    }

    /// The layer that is painted next: of a play the next in ascending priority, in steps whichever a step paints.
    pub fn paint(&mut self, show: &Show, layer: &Layer) -> Effect {
        let (area, width) = (show.area(layer), show.width);
        match &layer.kind {
            Kind::Straight { source, .. }
            | Kind::Scaled { source, .. }
            | Kind::Genie { source, .. }
                if *source as usize == self.hidden =>
            {
                self.set(area, width, true);
                Effect::Adds
            }
            Kind::Straight {
                radius,
                alpha: 255,
                dim: 0,
                ..
            } if *radius == 0.0 => {
                let any = self.meets(area, width);
                self.set(area, width, false);
                Effect::Clears { any }
            }
            Kind::Glass(glass) if self.meets(glass.window(show.whole()), width) => {
                let by_window_alone = !area.is_empty() && !self.meets(area, width);
                self.set(area, width, true);
                Effect::Spreads { by_window_alone }
            }
            Kind::Glass(_) => Effect::Apart,
            _ => Effect::Nothing,
        }
    }

    fn meets(&self, area: Area, width: u32) -> bool {
        !area.is_empty() && area.places(width).any(|i| self.holds[i])
    }

    fn set(&mut self, area: Area, width: u32, to: bool) {
        if !area.is_empty() {
            area.places(width).for_each(|i| self.holds[i] = to);
        }
    }
}
