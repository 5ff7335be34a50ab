//! The library's functions as C sees them, in the order of its header. That the linked archive has
//! them in this form is known by its version, which the build script asks for. An answer is one
//! number: in its upper 32 bits 0, or the cause's number; in its lower ones the count, the need or the
//! priority, or what stands beside the cause.
extern "C" {
    pub(crate) fn tiglostrema_version() -> u32;

    pub(crate) fn tiglostrema_play(
        rundown: *const u8,
        rundown_len: usize,
        width: u32,
        height: u32,
        canvas: *mut u32,
        canvas_len: usize,
        table: *const u32,
        table_len: usize,
        pool: *const u32,
        pool_len: usize,
        scratch_a: *mut u8,
        a_len: usize,
        scratch_b: *mut u8,
        b_len: usize,
    ) -> u64;

    pub(crate) fn tiglostrema_begin(
        rundown: *const u8,
        rundown_len: usize,
        width: u32,
        height: u32,
        canvas: *const u32,
        canvas_len: usize,
        table: *const u32,
        table_len: usize,
        pool: *const u32,
        pool_len: usize,
        scratch_a: *const u8,
        a_len: usize,
        scratch_b: *const u8,
        b_len: usize,
    ) -> u64;

    pub(crate) fn tiglostrema_step(
        rundown: *const u8,
        rundown_len: usize,
        width: u32,
        height: u32,
        canvas: *mut u32,
        canvas_len: usize,
        table: *const u32,
        table_len: usize,
        pool: *const u32,
        pool_len: usize,
        scratch_a: *mut u8,
        a_len: usize,
        scratch_b: *mut u8,
        b_len: usize,
        last: u32,
    ) -> u64;

    pub(crate) fn tiglostrema_forecast(
        rundown: *const u8,
        rundown_len: usize,
        width: u32,
        height: u32,
        table: *const u32,
        table_len: usize,
        boxes: *mut i32,
        totals: *mut u64,
    ) -> u64;

    pub(crate) fn tiglostrema_dearest(width: u32, height: u32, blur: f32, block: *mut u8) -> u64;

    pub(crate) fn tiglostrema_stain(
        rundown: *const u8,
        rundown_len: usize,
        width: u32,
        height: u32,
        table: *const u32,
        table_len: usize,
        source: u32,
        out: *mut u8,
        out_len: usize,
    ) -> u64;

    pub(crate) fn tiglostrema_add(
        buffer: *mut u8,
        buffer_len: usize,
        count: usize,
        block508: *const u8,
    ) -> u64;

    pub(crate) fn tiglostrema_remove(
        buffer: *mut u8,
        buffer_len: usize,
        count: usize,
        priority: u16,
    ) -> u64;

    pub(crate) fn tiglostrema_box_h(
        src: *const u8,
        src_len: usize,
        dst: *mut u8,
        dst_len: usize,
        width: usize,
        height: usize,
        r: usize,
    ) -> u64;

    pub(crate) fn tiglostrema_box_v(
        src: *const u8,
        src_len: usize,
        dst: *mut u8,
        dst_len: usize,
        width: usize,
        height: usize,
        r: usize,
    ) -> u64;
}
