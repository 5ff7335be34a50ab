//! The chunks of a PNG file.
use crate::zlib;

/// What every PNG file begins with.
const SIGNATURE: &[u8] = b"\x89PNG\r\n\x1a\n";
/// The bytes of a chunk besides its own: length, name and check.
const AROUND: usize = 12;

/// A chunk: its name, its bytes, and all of it as it stands in the file.
pub struct Chunk<'a> {
    pub name: [u8; 4],
    pub data: &'a [u8],
    pub whole: &'a [u8],
}

/// A file's chunks up to its end, or up to the first that is cut short.
pub fn chunks(file: &[u8]) -> impl Iterator<Item = Chunk<'_>> {
    let mut rest = file.strip_prefix(SIGNATURE).unwrap_or_default();
    std::iter::from_fn(move || {
        let (length, after) = rest.split_first_chunk()?;
        let (name, after) = after.split_first_chunk()?;
        let length = u32::from_be_bytes(*length) as usize;
        let data = after.get(..length)?;
        let whole = rest.get(..AROUND + length)?;
        rest = &rest[whole.len()..];
        Some(Chunk {
            name: *name,
            data,
            whole,
        })
    })
}

/// A file of no chunks.
pub fn empty() -> Vec<u8> {
    SIGNATURE.to_vec()
}

/// Puts a chunk behind those of a file.
pub fn push(file: &mut Vec<u8>, name: [u8; 4], data: &[u8]) {
    file.extend_from_slice(&(data.len() as u32).to_be_bytes());
    file.extend_from_slice(&name);
    file.extend_from_slice(data);
    file.extend_from_slice(&zlib::crc32([&name, data]).to_be_bytes());
}

#[cfg(test)]
mod tests {
    use super::*;

    #[test]
    fn what_is_pushed_is_found_again() {
        let mut file = empty();
        push(&mut file, *b"IDAT", &[1, 2]);
        push(&mut file, *b"IEND", &[]);
        // The check of a last chunk is the same in every PNG file.
        assert!(file.ends_with(b"\0\0\0\0IEND\xAE\x42\x60\x82"));
        let found: Vec<_> = chunks(&file).map(|c| (c.name, c.data)).collect();
        assert_eq!(found, [(*b"IDAT", &[1, 2][..]), (*b"IEND", &[])]);
    }

    #[test]
    fn a_chunk_cut_short_is_none() {
        let mut file = empty();
        push(&mut file, *b"IDAT", &[1, 2]);
        for length in 0..file.len() {
            assert_eq!(chunks(&file[..length]).count(), 0);
        }
    }
}
