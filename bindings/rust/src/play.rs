//! Playing a rundown.
use crate::detail::Size;
use crate::{forecast, raw, Canvas, Cause, Refusal, Rundown, Scratch, SourceTable, Sources};

/// Plays a rundown: paints its layers on the canvas in ascending priority, and answers how many
/// there are.
///
/// A scratch that is too short for the rundown's glass panels grows to what [`forecast`] says that they
/// need; a program that keeps its memory itself lends slices of its own to [`raw::play`]. To show newer
/// pictures in the layers that are painted later, play in steps: [`Playing`](crate::Playing).
///
/// # Errors
///
/// [`Cause::NoSuchSource`](crate::Cause::NoSuchSource) if a layer copies a source that is not
/// there or was removed, [`Cause::FrameTooWide`](crate::Cause::FrameTooWide) if a frame ends beyond
/// the canvas's width. Nothing has been painted then. Of several the first block's is answered, but a
/// removed source's before the others.
///
/// ```
/// use tiglostrema::{play, Canvas, Cause, Rundown, Scratch, Sources, StraightCopy};
///
/// let mut rundown = Rundown::new();
/// rundown.add(10, StraightCopy::new(3, 0, 0))?;
///
/// let mut canvas = Canvas::new(4, 2)?;
/// let refusal = play(&rundown, &mut canvas, &Sources::new(), &mut Scratch::new()).unwrap_err();
/// assert_eq!(refusal.cause(), Cause::NoSuchSource);
/// let words = "block 0, priority 10: there is no source 3, nor any other (cause 9)";
/// assert_eq!(refusal.to_string(), words);
/// # Ok::<(), tiglostrema::Refusal>(())
/// ```
pub fn play(
    rundown: &Rundown,
    canvas: &mut Canvas,
    sources: &Sources,
    scratch: &mut Scratch,
) -> Result<usize, Refusal> {
    let (width, height) = (canvas.width(), canvas.height());
    let table = sources.table();
    with_scratch(rundown, (width, height), table, scratch, |a, b| {
        raw::play(
            rundown.as_bytes(),
            width,
            height,
            canvas.pixels_mut(),
            table.as_words(),
            sources.pool(),
            a,
            b,
        )
    })
}

/// Makes a call that has the tests of a play, on a canvas of that size. It is lent the scratch as it is;
/// where that is too short it grows, and the call is made again.
pub(crate) fn with_scratch(
    rundown: &Rundown,
    (width, height): Size,
    table: &SourceTable,
    scratch: &mut Scratch,
    mut call: impl FnMut(&mut [u8], &mut [u8]) -> Result<usize, Refusal>,
) -> Result<usize, Refusal> {
    let told = |refusal| table.told(refusal, rundown, width);
    table.suits(rundown).map_err(told)?;
    let mut lend = |scratch: &mut Scratch| {
        let (a, b) = scratch.slices();
        call(a, b)
    };
    let mut made = lend(scratch);
    // Nothing was painted then, and this cause is tested last: there is a forecast, and with the length
    // that it says nothing is left to be refused.
    if made.is_err_and(|refusal| refusal.cause() == Cause::ScratchTooShort) {
        scratch.grow(forecast(rundown, width, height, table)?.scratch());
        made = lend(scratch);
    }
    made.map_err(told)
}
