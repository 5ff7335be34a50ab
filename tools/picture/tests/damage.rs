//! Files that are damaged are refused in words, whichever way they are read.
mod png;

use picture::{Error, Picture};
use png::{File, Kind};

/// The bytes behind the last row: the check of the pixels, that of their chunk, and the last chunk.
const BEHIND: usize = 4 + 4 + 12;

/// The bytes before the first chunk behind the header.
const HEAD: usize = 8 + 25;

/// Interlaced files of 8 and of 16 bits, which are read in different ways, of that many rows.
fn files(height: usize) -> [Vec<u8>; 2] {
    [8, 16].map(|depth| {
        let file = File {
            width: 9,
            height,
            kind: Kind::Rgb,
            depth,
            interlaced: true,
            chunks: Vec::new(),
            samples: (0..27 * height as u16)
                .map(|n| n % 256 * (1 << (depth - 8)))
                .collect(),
        };
        file.bytes()
    })
}

fn refused(bytes: &[u8]) -> bool {
    matches!(Picture::decode(bytes), Err(Error::Png(words)) if !words.is_empty())
}

#[test]
fn whole_files_are_read() {
    for file in files(9) {
        assert!(Picture::decode(&file).is_ok());
    }
}

#[test]
fn a_file_cut_short_is_refused() {
    for file in files(9) {
        for length in 0..file.len() - BEHIND {
            assert!(refused(&file[..length]), "{length} of {}", file.len());
        }
    }
}

#[test]
fn damaged_pixels_are_refused() {
    for mut file in files(9) {
        let at = file.len() - BEHIND - 1;
        file[at] ^= 1;
        assert!(refused(&file));
    }
}

#[test]
fn too_few_rows_are_refused() {
    for (said, there) in files(9).iter().zip(files(8)) {
        assert!(refused(&[&said[..HEAD], &there[HEAD..]].concat()));
    }
}

/// What a changed byte does is libpng's to say; whatever it is, nothing panics.
#[test]
fn a_file_with_a_changed_byte_is_read_or_refused() {
    for file in files(3) {
        for at in 0..file.len() {
            let mut changed = file.clone();
            changed[at] ^= 0xFF;
            let read = Picture::decode(&changed);
            assert!(read.is_ok() || refused(&changed), "byte {at}");
        }
    }
}
