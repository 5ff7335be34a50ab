//! The library's own functions over lent slices, for programs that keep their buffers themselves.
//!
//! Nothing is copied and nothing is allocated. Any slices may be lent: what does not fit is refused
//! with its [`Cause`], and a refused call leaves every slice as it was. The rest of this crate
//! calls these functions and no others.
use crate::{ffi, Cause, Refusal};

pub use crate::dearest::dearest_into;
pub use crate::forecast::{forecast_into, BOXES_LEN, TOTALS_LEN};
pub use crate::stain::stain_into;

/// The bytes of a block.
pub const BLOCK_LEN: usize = crate::block::LEN;
/// The bytes of a block without the check at its end, which [`add`] writes.
pub const BODY_LEN: usize = crate::block::BODY;

/// Plays a rundown: paints its layers on the canvas in ascending priority, and answers how many
/// there are.
///
/// `table` has a width and a height for each source. `pool` has the sources' pixels, one source
/// behind the other. Each scratch slice has to be long enough for every glass panel of the
/// rundown: [`forecast_into`] says how long, [`dearest_into`] how long for all panels of a blur, and
/// 3 × width × height bytes always are. What the scratch holds plays no part, and afterwards it may be
/// anything.
///
/// # Errors
///
/// Causes 1 to 11 and 15, in this order of tests: 1, 2, 3; then, block by block, 4, 5, 6, 7, 15, 9,
/// 10; then 8; then 11.
#[allow(clippy::too_many_arguments)]
pub fn play(
    rundown: &[u8],
    width: u32,
    height: u32,
    canvas: &mut [u32],
    table: &[u32],
    pool: &[u32],
    scratch_a: &mut [u8],
    scratch_b: &mut [u8],
) -> Result<usize, Refusal> {
    // SAFETY: each pointer goes with the length of the slice that it is from, and the slices are
    // borrowed until the call returns; those that are written are borrowed by it alone.
    count(unsafe {
        ffi::tiglostrema_play(
            rundown.as_ptr(),
            rundown.len(),
            width,
            height,
            canvas.as_mut_ptr(),
            canvas.len(),
            table.as_ptr(),
            table.len(),
            pool.as_ptr(),
            pool.len(),
            scratch_a.as_mut_ptr(),
            scratch_a.len(),
            scratch_b.as_mut_ptr(),
            scratch_b.len(),
        )
    })
}

/// Makes the tests of [`play`] and answers what that would, without painting: the first call of a playing
/// in steps. Nothing is written. No [`step`] needs it: it tells before the first one whether they will be
/// refused.
///
/// # Errors
///
/// As [`play`].
#[allow(clippy::too_many_arguments)]
pub fn begin(
    rundown: &[u8],
    width: u32,
    height: u32,
    canvas: &[u32],
    table: &[u32],
    pool: &[u32],
    scratch_a: &[u8],
    scratch_b: &[u8],
) -> Result<usize, Refusal> {
    // SAFETY: each pointer goes with the length of the slice that it is from, and the slices are
    // borrowed until the call returns, which only reads them.
    count(unsafe {
        ffi::tiglostrema_begin(
            rundown.as_ptr(),
            rundown.len(),
            width,
            height,
            canvas.as_ptr(),
            canvas.len(),
            table.as_ptr(),
            table.len(),
            pool.as_ptr(),
            pool.len(),
            scratch_a.as_ptr(),
            scratch_a.len(),
            scratch_b.as_ptr(),
            scratch_b.len(),
        )
    })
}

/// Paints one layer on the canvas, the one with the lowest priority above `last`, from the pool as it is
/// now, and answers that priority. After none the lowest layer of all is painted.
///
/// The library keeps nothing in mind from step to step. So `last` may be any number: what is not above it
/// is left out, whether a layer has that priority or not, and given again it has the same layer painted
/// again. [`Playing`](crate::Playing) keeps it, and lends the same buffers to every step.
///
/// ```
/// use tiglostrema::{raw, Cause, Rundown, StraightCopy};
///
/// let mut rundown = Rundown::new();
/// rundown.add(10, StraightCopy::new(1, 1, 0))?;
/// rundown.add(9, StraightCopy::new(0, 0, 0))?;
/// let (mut canvas, mut pool) = ([0; 4], [0x112233, 0x445566, 0xFFFFFF]);
/// let mut step = |pool: &[u32], last| {
///     let (rundown, table) = (rundown.as_bytes(), [2, 1, 1, 1]);
///     raw::step(rundown, 4, 1, &mut canvas, &table, pool, &mut [], &mut [], last)
/// };
/// assert_eq!(step(&pool, None), Ok(9));
/// pool[2] = 0xABCDEF; // a newer picture
/// assert_eq!(step(&pool, Some(9)), Ok(10));
/// assert_eq!(step(&pool, Some(10)).unwrap_err().cause(), Cause::NoNextLayer);
/// assert_eq!(canvas, [0x112233, 0xABCDEF, 0, 0]);
/// # Ok::<(), tiglostrema::Refusal>(())
/// ```
///
/// # Errors
///
/// As [`play`], in every step and of every layer, also of those that are not painted now; then, last of
/// all, cause 16 if no layer is above `last`.
#[allow(clippy::too_many_arguments)]
pub fn step(
    rundown: &[u8],
    width: u32,
    height: u32,
    canvas: &mut [u32],
    table: &[u32],
    pool: &[u32],
    scratch_a: &mut [u8],
    scratch_b: &mut [u8],
    last: Option<u16>,
) -> Result<u16, Refusal> {
    // SAFETY: as in `play`.
    let painted = count(unsafe {
        ffi::tiglostrema_step(
            rundown.as_ptr(),
            rundown.len(),
            width,
            height,
            canvas.as_mut_ptr(),
            canvas.len(),
            table.as_ptr(),
            table.len(),
            pool.as_ptr(),
            pool.len(),
            scratch_a.as_mut_ptr(),
            scratch_a.len(),
            scratch_b.as_mut_ptr(),
            scratch_b.len(),
            // A number that no priority can be stands for none.
            last.map_or(u32::MAX, u32::from),
        )
    });
    // A priority has two bytes in its block.
    painted.map(|priority| priority as u16)
}

/// Adds a block to the `count` blocks at the buffer's front, with its check, and answers the new
/// count. Afterwards the blocks stand in ascending priority, in whatever order they came; what the
/// bytes behind them hold is not promised.
///
/// # Errors
///
/// Causes 3 to 8, 12 and 15. Blocks are counted as they came; the new one's number is `count`, wherever
/// it would stand.
pub fn add(buffer: &mut [u8], count: usize, block: &[u8; BODY_LEN]) -> Result<usize, Refusal> {
    // SAFETY: the buffer's pointer goes with its length, the block's with the 508 bytes that the
    // function takes; both are borrowed until the call returns, the buffer by it alone.
    self::count(unsafe {
        ffi::tiglostrema_add(buffer.as_mut_ptr(), buffer.len(), count, block.as_ptr())
    })
}

/// Removes the block of that priority from the `count` blocks at the buffer's front, and answers
/// the new count. Afterwards the blocks stand in ascending priority, in whatever order they came; what
/// the bytes behind them hold is not promised. The same block, added again, gives back every byte of
/// blocks that were in this order.
///
/// # Errors
///
/// Causes 3 to 8, 13 and 15. What is held is tested first: a block that is refused is not removed
/// either.
pub fn remove(buffer: &mut [u8], count: usize, priority: u16) -> Result<usize, Refusal> {
    // SAFETY: the buffer's pointer goes with its length, and it is borrowed by the call alone.
    self::count(unsafe {
        ffi::tiglostrema_remove(buffer.as_mut_ptr(), buffer.len(), count, priority)
    })
}

/// Blurs a picture along its rows: each byte of `dst` is the mean of the 2 × `r` + 1 bytes of its
/// channel around it in `src`, the row's ends held. A pixel is three bytes.
///
/// ```
/// use tiglostrema::raw::box_h;
///
/// let src = [0, 0, 0, 0, 0, 0, 255, 255, 255];
/// let mut dst = [0; 9];
/// box_h(&src, &mut dst, 3, 1, 1)?;
/// assert_eq!(dst, [0, 0, 0, 85, 85, 85, 170, 170, 170]);
/// # Ok::<(), tiglostrema::Refusal>(())
/// ```
///
/// # Errors
///
/// Cause 14: a side is not 1 to 4096, 2 × `r` + 1 is above 65536, or a slice is not 3 × `width` ×
/// `height` bytes long.
pub fn box_h(
    src: &[u8],
    dst: &mut [u8],
    width: usize,
    height: usize,
    r: usize,
) -> Result<(), Refusal> {
    // SAFETY: each pointer goes with the length of the slice that it is from, and the slices are
    // borrowed until the call returns, `dst` by it alone.
    count(unsafe {
        ffi::tiglostrema_box_h(
            src.as_ptr(),
            src.len(),
            dst.as_mut_ptr(),
            dst.len(),
            width,
            height,
            r,
        )
    })
    .map(|_| ())
}

/// Blurs a picture along its columns, as [`box_h`] does along its rows.
///
/// # Errors
///
/// As [`box_h`].
pub fn box_v(
    src: &[u8],
    dst: &mut [u8],
    width: usize,
    height: usize,
    r: usize,
) -> Result<(), Refusal> {
    // SAFETY: as in `box_h`.
    count(unsafe {
        ffi::tiglostrema_box_v(
            src.as_ptr(),
            src.len(),
            dst.as_mut_ptr(),
            dst.len(),
            width,
            height,
            r,
        )
    })
    .map(|_| ())
}

/// The library's answer: a count, a need or a priority, or a cause with what stands beside it.
pub(crate) fn count(answer: u64) -> Result<usize, Refusal> {
    let (number, beside) = ((answer >> 32) as u32, answer as u32);
    match number {
        0 => Ok(beside as usize),
        _ => Err(Refusal::new(Cause::from_number(number), beside)),
    }
}
