//! The proved tests of a block, as crate `c_blocks` exports them. An answer has the cause's number in its
//! upper half, 0 where nothing is refused.

unsafe extern "C" {
    fn block_judge(block: *const u8, block_len: usize) -> u64;
    fn block_judge_at(buf: *const u8, buf_len: usize, place: usize) -> u64;
}

/// Tests 4 to 7 and 15 of the block at the front.
#[inline]
pub fn judge(block: &[u8]) -> u64 {
    // Safe: pointer and length are those of a slice.
    unsafe { block_judge(block.as_ptr(), block.len()) }
}

/// The same of the block from this byte on.
#[inline]
pub fn judge_at(buffer: &[u8], place: usize) -> u64 {
    // Safe: pointer and length are those of a slice, and any place may be asked for.
    unsafe { block_judge_at(buffer.as_ptr(), buffer.len(), place) }
}
