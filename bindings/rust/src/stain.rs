//! Which pixels a source may have coloured.
use crate::detail::{area, sides, Picture};
use crate::table::known;
use crate::{ffi, raw, IRect, Refusal, Rundown, SourceId, SourceTable};

/// The pixels of a canvas that a source may have coloured, itself or through glass: what
/// [`stain`] answers. The field calls this taint tracking.
#[derive(Clone, PartialEq, Eq, Hash)]
pub struct Stain {
    width: u32,
    map: Vec<u8>,
}

/// Which pixels of a canvas the source may have coloured when the rundown is played. Nothing is
/// painted, and no pixel is looked at: it follows from the rundown and the sizes alone.
///
/// It is proved that every other pixel is free of that source: play the rundown twice on equal
/// canvases, with whatever pixels in that source, and outside the stain both pictures agree.
///
/// In ascending priority, a copy of the source stains its box; an exact copy of another source
/// ([`StraightCopy::is_exact`](crate::StraightCopy::is_exact)) cleans its box; a
/// [`Glass`](crate::Glass) panel stains its box if its blur may reach a stained pixel, even beyond
/// its edge. Other layers change nothing.
///
/// # Errors
///
/// The causes of [`play`](crate::play), and
///
/// - [`Cause::CanvasSize`](crate::Cause::CanvasSize) if a side is not 1 to 4096;
/// - [`Cause::NoSuchSource`](crate::Cause::NoSuchSource) if `source` is not in the table. This
///   refusal lies in no block: the number that is wrong is the call's. Without it a slip in the
///   number would look like a source that reaches no pixel.
///
/// ```
/// use tiglostrema::{stain, Glass, IRect, Rect, Rundown, SourceTable, StraightCopy};
///
/// let mut sources = SourceTable::new();
/// let relay = sources.push(40, 30)?;
/// let interpreter = sources.push(20, 30)?;
///
/// let mut rundown = Rundown::new();
/// rundown.add(1, StraightCopy::new(relay, 10, 10))?;
/// // A frosted ticker below the relay call: its blur reaches up into the call's picture.
/// rundown.add(2, Glass::new(Rect::new(0.0, 44.0, 160.0, 16.0), 4.0))?;
/// // The interpreter stands over the ticker's end.
/// rundown.add(3, StraightCopy::new(interpreter, 140, 30))?;
///
/// let stain = stain(&rundown, 160, 60, &sources, relay)?;
/// assert!(stain.is_stained(10, 10), "the call itself");
/// assert!(stain.is_stained(100, 50), "the ticker");
/// assert!(!stain.is_stained(100, 40), "the studio between them");
/// assert_eq!(stain.share_in(IRect::new(140, 30, 160, 60)), 0.0, "the interpreter");
/// assert_eq!(stain.count(), 40 * 30 + 160 * 16 - 20 * 16);
///
/// let refusal = tiglostrema::stain(&rundown, 160, 60, &sources, 2).unwrap_err();
/// assert_eq!(refusal.to_string(), "there is no source 2, the last is 1 (cause 9)");
/// # Ok::<(), tiglostrema::Refusal>(())
/// ```
pub fn stain(
    rundown: &Rundown,
    width: u32,
    height: u32,
    table: &SourceTable,
    source: impl Into<SourceId>,
) -> Result<Stain, Refusal> {
    let source = source.into();
    sides(Picture::Canvas, (width, height))?;
    table.present(source)?;
    let told = |refusal| table.told(refusal, rundown, width);
    table.suits(rundown).map_err(told)?;
    let mut map = vec![0; area((width, height))];
    let answer = stain_into(
        rundown.as_bytes(),
        width,
        height,
        table.as_words(),
        source,
        &mut map,
    );
    answer.map_err(told)?;
    Ok(Stain { width, map })
}

/// As [`stain`], over lent slices: `out` gets a byte for each pixel, 1 where it is stained and 0
/// where it is not. It answers how many layers there are.
///
/// # Errors
///
/// As [`raw::play`], without the lengths of canvas and pool and without cause 11. Cause 1 also if
/// `out` is not width × height bytes long. Before all of them, cause 9 in no block if `source` is
/// not in the table, which the C function takes for a source that reaches no pixel.
pub fn stain_into(
    rundown: &[u8],
    width: u32,
    height: u32,
    table: &[u32],
    source: impl Into<SourceId>,
    out: &mut [u8],
) -> Result<usize, Refusal> {
    let source = source.into();
    known(source, table)?;
    // SAFETY: each pointer goes with the length of the slice that it is from, and the slices are
    // borrowed until the call returns, `out` by it alone.
    raw::count(unsafe {
        ffi::tiglostrema_stain(
            rundown.as_ptr(),
            rundown.len(),
            width,
            height,
            table.as_ptr(),
            table.len(),
            source.number(),
            out.as_mut_ptr(),
            out.len(),
        )
    })
}

impl Stain {
    /// Whether the source may have coloured the pixel in column x of row y. Off the canvas there
    /// is none.
    #[must_use]
    pub fn is_stained(&self, x: u32, y: u32) -> bool {
        let row = self.map.chunks_exact(self.width as usize).nth(y as usize);
        row.and_then(|row| row.get(x as usize)) == Some(&1)
    }

    /// A byte for each pixel, row by row: 1 where it is stained, 0 where it is not.
    #[must_use]
    pub fn as_bytes(&self) -> &[u8] {
        &self.map
    }

    /// The width of the canvas.
    #[must_use]
    pub fn width(&self) -> u32 {
        self.width
    }

    /// The height of the canvas.
    #[must_use]
    pub fn height(&self) -> u32 {
        (self.map.len() / self.width as usize) as u32
    }

    /// How many pixels are stained.
    #[must_use]
    pub fn count(&self) -> usize {
        self.map.iter().filter(|byte| **byte == 1).count()
    }

    /// How many pixels of the rectangle are stained.
    #[must_use]
    pub fn count_in(&self, rect: IRect) -> usize {
        let canvas = IRect::new(0, 0, self.width() as i32, self.height() as i32);
        let part = rect.intersect(&canvas);
        if part.is_empty() {
            return 0;
        }
        let columns = part.x0 as usize..part.x1 as usize;
        let rows = self.map.chunks_exact(self.width as usize);
        let inside = rows
            .skip(part.y0 as usize)
            .take((part.y1 - part.y0) as usize);
        inside
            .map(|row| {
                row[columns.clone()]
                    .iter()
                    .filter(|byte| **byte == 1)
                    .count()
            })
            .sum()
    }

    /// Which share of the rectangle's pixels on the canvas is stained, 0 to 1; 0 if none of them
    /// is on the canvas.
    #[must_use]
    pub fn share_in(&self, rect: IRect) -> f64 {
        let canvas = IRect::new(0, 0, self.width() as i32, self.height() as i32);
        let area = rect.intersect(&canvas).area();
        if area == 0 {
            0.0
        } else {
            self.count_in(rect) as f64 / area as f64
        }
    }
}
