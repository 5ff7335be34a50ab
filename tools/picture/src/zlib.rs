//! zlib, which libpng stands on: whole streams at once, and the check of a chunk.
use std::ffi::{c_int, c_uint, c_ulong};

const OK: c_int = 0; // Z_OK
const BEST_SPEED: c_int = 1; // Z_BEST_SPEED

#[link(name = "z")]
extern "C" {
    fn uncompress(
        dest: *mut u8,
        dest_len: *mut c_ulong,
        source: *const u8,
        source_len: c_ulong,
    ) -> c_int;
    fn compress2(
        dest: *mut u8,
        dest_len: *mut c_ulong,
        source: *const u8,
        source_len: c_ulong,
        level: c_int,
    ) -> c_int;
    fn compressBound(source_len: c_ulong) -> c_ulong;
    #[link_name = "crc32"]
    fn crc32_of(crc: c_ulong, bytes: *const u8, len: c_uint) -> c_ulong;
}

/// The bytes of a stream, which have to be as many as is said.
pub fn inflate(stream: &[u8], length: usize) -> Result<Vec<u8>, String> {
    let mut out = vec![0; length];
    let mut written = length as c_ulong;
    // SAFETY: `out` has `written` bytes, `stream` as many as is said, and neither overlaps the other.
    let answer = unsafe {
        uncompress(
            out.as_mut_ptr(),
            &mut written,
            stream.as_ptr(),
            stream.len() as c_ulong,
        )
    };
    if answer != OK || written as usize != length {
        return Err("its compressed pixels are damaged, cut short or too many".to_string());
    }
    Ok(out)
}

/// A stream of the bytes.
pub fn deflate(bytes: &[u8]) -> Result<Vec<u8>, String> {
    let length = bytes.len() as c_ulong;
    // SAFETY: the function only counts.
    let mut written = unsafe { compressBound(length) };
    let mut out = vec![0; written as usize];
    // SAFETY: `out` has `written` bytes, `bytes` as many as is said, and neither overlaps the other.
    let answer = unsafe {
        compress2(
            out.as_mut_ptr(),
            &mut written,
            bytes.as_ptr(),
            length,
            BEST_SPEED,
        )
    };
    if answer != OK {
        return Err("there is not memory enough for its pixels".to_string());
    }
    out.truncate(written as usize);
    Ok(out)
}

/// The check over the parts of a chunk that come one behind the other.
pub fn crc32(parts: [&[u8]; 2]) -> u32 {
    let crc = parts.iter().fold(0, |crc, part| {
        // SAFETY: `part` has as many bytes as is said; a part of a chunk has fewer than 2^31.
        unsafe { crc32_of(crc, part.as_ptr(), part.len() as c_uint) }
    });
    crc as u32
}
