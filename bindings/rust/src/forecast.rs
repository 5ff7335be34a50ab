//! What a play will need, before it is played.
use crate::detail::{sides, Picture};
use crate::{ffi, raw, IRect, Refusal, Rundown, SourceTable, MAX_LAYERS};

/// The numbers of a box: x0, y0, x1, y1.
const BOX: usize = 4;

/// The numbers of all boxes that [`forecast_into`] writes: four for each of 256 layers.
pub const BOXES_LEN: usize = BOX * MAX_LAYERS;
/// The totals that [`forecast_into`] writes: scratch bytes, cells.
pub const TOTALS_LEN: usize = 2;

/// What a play of a rundown will need, and where its layers will paint: what [`forecast`] answers.
#[derive(Clone, Debug, PartialEq, Eq, Hash)]
pub struct Forecast {
    scratch: usize,
    cells: u64,
    boxes: Vec<Option<IRect>>,
}

/// What a play of the rundown will need on a canvas of that size, and where its layers will paint.
/// Nothing is painted, and no pixel is looked at: it follows from the rundown and the sizes alone.
///
/// A studio asks in the morning, and reserves the memory once:
///
/// ```
/// use tiglostrema::{forecast, Glass, IRect, Rect, Rundown, Scratch, SourceTable, StraightCopy};
///
/// let mut sources = SourceTable::new();
/// let studio = sources.push(2, 2)?;
///
/// let mut rundown = Rundown::new();
/// rundown.add(9, Glass::new(Rect::new(4.0, 0.0, 3.0, 2.0), 0.0))?;
/// rundown.add(1, StraightCopy::new(studio, 0, 0))?;
/// rundown.add(5, StraightCopy::new(studio, 8, 0))?;
///
/// let forecast = forecast(&rundown, 8, 2, &sources)?;
/// assert_eq!(forecast.layers(), 3);
/// // The panel looks three pixels beyond its edges: at 7 × 2 pixels of this canvas.
/// assert_eq!((forecast.scratch(), forecast.cells()), (42, 14));
/// for ((priority, _), area) in rundown.iter().zip(forecast.boxes()) {
///     let expected = match priority {
///         9 => Some(IRect::new(4, 0, 7, 2)),
///         1 => Some(IRect::new(0, 0, 2, 2)),
///         _ => None, // beyond the canvas
///     };
///     assert_eq!(*area, expected);
/// }
///
/// let scratch = Scratch::for_forecast(&forecast);
/// assert_eq!(scratch.len(), 42);
/// # Ok::<(), tiglostrema::Refusal>(())
/// ```
///
/// # Errors
///
/// The causes of [`play`](crate::play), and [`Cause::CanvasSize`](crate::Cause::CanvasSize) if a
/// side is not 1 to 4096.
pub fn forecast(
    rundown: &Rundown,
    width: u32,
    height: u32,
    table: &SourceTable,
) -> Result<Forecast, Refusal> {
    sides(Picture::Canvas, (width, height))?;
    let told = |refusal| table.told(refusal, rundown, width);
    table.suits(rundown).map_err(told)?;
    Forecast::of_bytes(rundown.as_bytes(), width, height, table.as_words()).map_err(told)
}

/// As [`forecast`], into lent arrays: `boxes` gets x0, y0, x1, y1 of block i from place 4 × i on,
/// zeros where a box is empty or there is no layer, and `totals` the bytes of each scratch slice and
/// the cells. It answers how many layers there are.
///
/// # Errors
///
/// As [`raw::play`], without the lengths of canvas and pool and without cause 11. Both arrays are as
/// they were then.
pub fn forecast_into(
    rundown: &[u8],
    width: u32,
    height: u32,
    table: &[u32],
    boxes: &mut [i32; BOXES_LEN],
    totals: &mut [u64; TOTALS_LEN],
) -> Result<usize, Refusal> {
    // SAFETY: each pointer goes with the length of the slice that it is from, those of the arrays
    // with the 1024 and 2 numbers that the function takes; all are borrowed until the call returns,
    // the arrays by it alone.
    raw::count(unsafe {
        ffi::tiglostrema_forecast(
            rundown.as_ptr(),
            rundown.len(),
            width,
            height,
            table.as_ptr(),
            table.len(),
            boxes.as_mut_ptr(),
            totals.as_mut_ptr(),
        )
    })
}

impl Forecast {
    /// As [`forecast`], of any bytes and of a table as the library takes it.
    ///
    /// # Errors
    ///
    /// As [`raw::forecast_into`].
    pub fn of_bytes(
        rundown: &[u8],
        width: u32,
        height: u32,
        table: &[u32],
    ) -> Result<Forecast, Refusal> {
        let (mut boxes, mut totals) = ([0; BOXES_LEN], [0; TOTALS_LEN]);
        let layers = forecast_into(rundown, width, height, table, &mut boxes, &mut totals)?;
        let [scratch, cells] = totals;
        let areas = boxes.chunks_exact(BOX).take(layers);
        let boxes = areas.map(|b| IRect::new(b[0], b[1], b[2], b[3]));
        Ok(Forecast {
            scratch: scratch as usize,
            cells,
            boxes: boxes
                .map(|area| (!area.is_empty()).then_some(area))
                .collect(),
        })
    }

    /// How many layers there are.
    #[must_use]
    pub fn layers(&self) -> usize {
        self.boxes.len()
    }

    /// How many bytes each scratch slice needs: the most that any layer does. It is proved that a play
    /// with that many in both slices is never refused by
    /// [`Cause::ScratchTooShort`](crate::Cause::ScratchTooShort), and with one byte less in either it
    /// is; where the need is 0, both may be empty.
    #[must_use]
    pub fn scratch(&self) -> usize {
        self.scratch
    }

    /// How many cells glass panels work on, by which their time can be estimated. A panel with a blur
    /// below 2.5 works on single pixels, below 9 on cells of 2 × 2 and otherwise of 4 × 4, and has as
    /// many as cover the part of the canvas that it looks at. Panels that overlap count in full, and one
    /// that paints nothing does not count.
    #[must_use]
    pub fn cells(&self) -> u64 {
        self.cells
    }

    /// The layers' boxes on the canvas, in the order of [`Rundown::iter`]; none where a box is empty. No
    /// layer changes a pixel outside its box.
    #[must_use]
    pub fn boxes(&self) -> &[Option<IRect>] {
        &self.boxes
    }
}
