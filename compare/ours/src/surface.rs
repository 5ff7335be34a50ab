//! The library as crate `tiglostrema` exports it: what include/tiglostrema.h declares. An answer has the
//! cause's number in its upper half, 0 where nothing is refused, and what stands beside it (or the count, the
//! need or the priority) in its lower half.

/// What a play is lent to read.
#[derive(Clone, Copy)]
pub struct Show<'a> {
    pub rundown: &'a [u8],
    pub width: u32,
    pub height: u32,
    /// Widths and heights by turns.
    pub table: &'a [u32],
    pub pool: &'a [u32],
}

/// The numbers of the boxes of 256 layers: x0, y0, x1, y1 of each.
pub const BOXES: usize = 1024;

unsafe extern "C" {
    fn tiglostrema_play(
        rundown: *const u8,
        rundown_len: usize,
        width: u32,
        height: u32,
        canvas: *mut u32,
        canvas_len: usize,
        table: *const u32,
        table_len: usize,
        pool: *const u32,
        pool_len: usize,
        scratch_a: *mut u8,
        a_len: usize,
        scratch_b: *mut u8,
        b_len: usize,
    ) -> u64;
    fn tiglostrema_begin(
        rundown: *const u8,
        rundown_len: usize,
        width: u32,
        height: u32,
        canvas: *const u32,
        canvas_len: usize,
        table: *const u32,
        table_len: usize,
        pool: *const u32,
        pool_len: usize,
        scratch_a: *const u8,
        a_len: usize,
        scratch_b: *const u8,
        b_len: usize,
    ) -> u64;
    fn tiglostrema_step(
        rundown: *const u8,
        rundown_len: usize,
        width: u32,
        height: u32,
        canvas: *mut u32,
        canvas_len: usize,
        table: *const u32,
        table_len: usize,
        pool: *const u32,
        pool_len: usize,
        scratch_a: *mut u8,
        a_len: usize,
        scratch_b: *mut u8,
        b_len: usize,
        last: u32,
    ) -> u64;
    fn tiglostrema_stain(
        rundown: *const u8,
        rundown_len: usize,
        width: u32,
        height: u32,
        table: *const u32,
        table_len: usize,
        source: u32,
        out: *mut u8,
        out_len: usize,
    ) -> u64;
    fn tiglostrema_forecast(
        rundown: *const u8,
        rundown_len: usize,
        width: u32,
        height: u32,
        table: *const u32,
        table_len: usize,
        boxes: *mut [i32; BOXES],
        totals: *mut [u64; 2],
    ) -> u64;
    fn tiglostrema_dearest(width: u32, height: u32, blur: f32, block: *mut [u8; 512]) -> u64;
    fn tiglostrema_add(
        buffer: *mut u8,
        buffer_len: usize,
        count: usize,
        block508: *const [u8; 508],
    ) -> u64;
    fn tiglostrema_remove(buffer: *mut u8, buffer_len: usize, count: usize, priority: u16) -> u64;
    fn tiglostrema_box_h(
        src: *const u8,
        src_len: usize,
        dst: *mut u8,
        dst_len: usize,
        width: usize,
        height: usize,
        r: usize,
    ) -> u64;
    fn tiglostrema_box_v(
        src: *const u8,
        src_len: usize,
        dst: *mut u8,
        dst_len: usize,
        width: usize,
        height: usize,
        r: usize,
    ) -> u64;
}

// Safe: pointers and lengths are those of slices, and two slices of which one is `&mut` share nothing.

/// Paints the rundown's layers: how many there are, or why not.
#[inline]
pub fn play(show: Show, canvas: &mut [u32], a: &mut [u8], b: &mut [u8]) -> u64 {
    unsafe {
        tiglostrema_play(
            show.rundown.as_ptr(),
            show.rundown.len(),
            show.width,
            show.height,
            canvas.as_mut_ptr(),
            canvas.len(),
            show.table.as_ptr(),
            show.table.len(),
            show.pool.as_ptr(),
            show.pool.len(),
            a.as_mut_ptr(),
            a.len(),
            b.as_mut_ptr(),
            b.len(),
        )
    }
}

/// Play's tests alone, and how many layers there are. All slices are lent to be read: the call writes nothing.
#[inline]
pub fn begin(show: Show, canvas: &[u32], a: &[u8], b: &[u8]) -> u64 {
    unsafe {
        tiglostrema_begin(
            show.rundown.as_ptr(),
            show.rundown.len(),
            show.width,
            show.height,
            canvas.as_ptr(),
            canvas.len(),
            show.table.as_ptr(),
            show.table.len(),
            show.pool.as_ptr(),
            show.pool.len(),
            a.as_ptr(),
            a.len(),
            b.as_ptr(),
            b.len(),
        )
    }
}

/// Paints the layer with the least priority above the last painted one, of which a number above 65535 is none: its
/// priority, or why not.
#[inline]
pub fn step(show: Show, canvas: &mut [u32], a: &mut [u8], b: &mut [u8], last: u32) -> u64 {
    unsafe {
        tiglostrema_step(
            show.rundown.as_ptr(),
            show.rundown.len(),
            show.width,
            show.height,
            canvas.as_mut_ptr(),
            canvas.len(),
            show.table.as_ptr(),
            show.table.len(),
            show.pool.as_ptr(),
            show.pool.len(),
            a.as_mut_ptr(),
            a.len(),
            b.as_mut_ptr(),
            b.len(),
            last,
        )
    }
}

/// The stain of a source, a byte for each pixel; the pool is not looked at.
#[inline]
pub fn stain(show: Show, source: u32, map: &mut [u8]) -> u64 {
    unsafe {
        tiglostrema_stain(
            show.rundown.as_ptr(),
            show.rundown.len(),
            show.width,
            show.height,
            show.table.as_ptr(),
            show.table.len(),
            source,
            map.as_mut_ptr(),
            map.len(),
        )
    }
}

/// The layers' boxes, the scratch that each slice needs and the cells; the pool is not looked at.
#[inline]
pub fn forecast(show: Show, boxes: &mut [i32; BOXES], totals: &mut [u64; 2]) -> u64 {
    unsafe {
        tiglostrema_forecast(
            show.rundown.as_ptr(),
            show.rundown.len(),
            show.width,
            show.height,
            show.table.as_ptr(),
            show.table.len(),
            boxes,
            totals,
        )
    }
}

/// The glass layer of this blur that needs the most scratch on a canvas of this size, and its need.
#[inline]
pub fn dearest(width: u32, height: u32, blur: f32, block: &mut [u8; 512]) -> u64 {
    unsafe { tiglostrema_dearest(width, height, blur, block) }
}

/// A new block of these bytes.
#[inline]
pub fn add(buffer: &mut [u8], count: usize, new: &[u8; 508]) -> u64 {
    unsafe { tiglostrema_add(buffer.as_mut_ptr(), buffer.len(), count, new) }
}

/// The block of this priority goes.
#[inline]
pub fn remove(buffer: &mut [u8], count: usize, priority: u16) -> u64 {
    unsafe { tiglostrema_remove(buffer.as_mut_ptr(), buffer.len(), count, priority) }
}

/// The pass along the rows of w by h cells of three bytes.
pub fn box_h(src: &[u8], dst: &mut [u8], w: usize, h: usize, r: usize) -> u64 {
    let (to, len) = (dst.as_mut_ptr(), dst.len());
    unsafe { tiglostrema_box_h(src.as_ptr(), src.len(), to, len, w, h, r) }
}

/// The pass along the columns.
pub fn box_v(src: &[u8], dst: &mut [u8], w: usize, h: usize, r: usize) -> u64 {
    let (to, len) = (dst.as_mut_ptr(), dst.len());
    unsafe { tiglostrema_box_v(src.as_ptr(), src.len(), to, len, w, h, r) }
}
