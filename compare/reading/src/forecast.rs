//! The forecast, 02's request One: what a play is going to need, and where its layers paint.
use crate::boxes::Area;
use crate::layer::{Glass, Kind};
use crate::play::Show;
use crate::{Cause, MOST};

/// What a rundown that nothing but scratch can refuse is going to take.
#[derive(Clone, PartialEq, Eq, Debug)]
pub struct Forecast {
    /// How many layers there are.
    pub layers: usize,
    /// The greatest length that any of them needs of each scratch slice.
    pub scratch: usize,
    /// How many cells of glass are worked on in all: 256 panels may have 2^32.
    pub cells: u64,
    /// The layers' boxes in the buffer's order; zeros for an empty box and for no layer.
    pub boxes: [Area; MOST],
}

impl Show<'_> {
    /// Play's tests in their order, but for 11 and for the lengths of canvas and pool.
    pub fn forecast(&self) -> Result<Forecast, (Cause, usize)> {
        let mut forecast = Forecast {
            layers: self.layers_fit(true, true)?,
            scratch: 0,
            cells: 0,
            boxes: [Area::NONE; MOST],
        };
        for (layer, place) in self.layers().zip(&mut forecast.boxes) {
            let area = self.area(&layer);
            if area.is_empty() {
                continue;
            }
            *place = area;
            if let Kind::Glass(glass) = &layer.kind {
                forecast.scratch = forecast.scratch.max(glass.need(self.whole()));
                forecast.cells += cells(glass, self.whole());
            }
        }
        Ok(forecast)
    }
}

/// The cells of a panel whose box is not empty: ceil(window width / k) × ceil(window height / k), found
/// as the places at which a cell begins.
fn cells(glass: &Glass, canvas: Area) -> u64 {
    let Area { x0, y0, x1, y1 } = glass.window(canvas);
    let begun = |from: i32, to: i32| (from..to).step_by(glass.scale()).len() as u64;
    begun(x0, x1) * begun(y0, y1)
}
