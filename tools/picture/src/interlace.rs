//! Interlaced 16-bit files, made ones that are not interlaced before libpng reads them.
//!
//! libpng's simplified interface cannot make 8 bits of such files. Debian's 1.6.39-2+deb12u4 answers one row for
//! another, without an error; versions in which CVE-2025-65018 is not mended may write beyond the buffer. Interlaced
//! files of fewer bits are read as they should be.
use crate::chunks::{self, chunks};
use crate::zlib;

/// The pixels of a pass: the first, and the steps to the next.
struct Pass {
    x: usize,
    y: usize,
    right: usize,
    down: usize,
}

const fn pass(x: usize, y: usize, right: usize, down: usize) -> Pass {
    Pass { x, y, right, down }
}

/// The passes of an interlaced file, in their order.
const PASSES: [Pass; 7] = [
    pass(0, 0, 8, 8),
    pass(4, 0, 8, 8),
    pass(0, 4, 4, 8),
    pass(2, 0, 4, 4),
    pass(0, 2, 2, 4),
    pass(1, 0, 2, 2),
    pass(0, 1, 1, 2),
];

/// Where the header says how many bits a sample has, which samples a pixel has, and whether it is interlaced.
const DEPTH: usize = 8;
const COLOUR_TYPE: usize = 9;
const INTERLACED: usize = 12;
/// The bytes of a header.
const HEADER: usize = 13;
/// The bytes of a chunk of pixels, at most.
const PART: usize = 1 << 20;

/// The size of a 16-bit picture, and the bytes of a pixel.
struct Layout {
    width: usize,
    height: usize,
    each: usize,
}

/// The file's header, where the file is one of 16 bits and interlaced.
pub fn header(file: &[u8]) -> Option<[u8; HEADER]> {
    let first = chunks(file).next().filter(|c| c.name == *b"IHDR")?;
    let header: [u8; HEADER] = first.data.try_into().ok()?;
    (header[DEPTH] == 16 && header[INTERLACED] == 1).then_some(header)
}

/// The file with that header, its pixels row by row. All other chunks stay, wrong checks included.
pub fn straightened(file: &[u8], mut header: [u8; HEADER]) -> Result<Vec<u8>, String> {
    let pixels = Layout::new(header).rows(&compressed(file))?;
    let mut pixels = Some(zlib::deflate(&pixels)?);
    header[INTERLACED] = 0;
    let mut out = chunks::empty();
    for chunk in chunks(file) {
        match &chunk.name {
            b"IHDR" => chunks::push(&mut out, chunk.name, &header),
            // All pixels stand where the first of them stood.
            b"IDAT" => push_pixels(&mut out, &pixels.take().unwrap_or_default()),
            _ => out.extend_from_slice(chunk.whole),
        }
    }
    Ok(out)
}

/// The stream of the file's pixels.
fn compressed(file: &[u8]) -> Vec<u8> {
    let parts = chunks(file).filter(|chunk| chunk.name == *b"IDAT");
    parts.flat_map(|chunk| chunk.data).copied().collect()
}

fn push_pixels(out: &mut Vec<u8>, stream: &[u8]) {
    for part in stream.chunks(PART) {
        chunks::push(out, *b"IDAT", part);
    }
}

impl Layout {
    fn new(header: [u8; HEADER]) -> Layout {
        let [w0, w1, w2, w3, h0, h1, h2, h3, ..] = header;
        let samples = match header[COLOUR_TYPE] {
            2 => 3,
            4 => 2,
            6 => 4,
            _ => 1,
        };
        Layout {
            width: u32::from_be_bytes([w0, w1, w2, w3]) as usize,
            height: u32::from_be_bytes([h0, h1, h2, h3]) as usize,
            each: 2 * samples,
        }
    }

    /// The pixels in a row of that pass.
    fn columns(&self, pass: &Pass) -> usize {
        self.width.saturating_sub(pass.x).div_ceil(pass.right)
    }

    /// The bytes of that pass: each row has one for its filter. Where it has no columns it has no rows.
    fn length(&self, pass: &Pass) -> usize {
        let rows = self.height.saturating_sub(pass.y).div_ceil(pass.down);
        match self.columns(pass) {
            0 => 0,
            columns => rows * (1 + columns * self.each),
        }
    }

    /// All rows, each behind a byte that says it is not filtered.
    fn rows(&self, stream: &[u8]) -> Result<Vec<u8>, String> {
        let length = PASSES.iter().map(|pass| self.length(pass)).sum();
        let mut passes = zlib::inflate(stream, length)?;
        let mut out = vec![0; self.height * (1 + self.width * self.each)];
        let mut rest = &mut passes[..];
        for pass in &PASSES {
            let (own, others) = rest.split_at_mut(self.length(pass));
            self.spread(pass, own, &mut out)?;
            rest = others;
        }
        Ok(out)
    }

    /// Brings the pixels of a pass to their places.
    fn spread(&self, pass: &Pass, lines: &mut [u8], out: &mut [u8]) -> Result<(), String> {
        let columns = self.columns(pass) * self.each;
        let mut above = vec![0; columns];
        let places = out.chunks_mut(1 + self.width * self.each);
        let places = places.skip(pass.y).step_by(pass.down);
        for (line, place) in lines.chunks_mut(1 + columns).zip(places) {
            unfilter(line, &above, self.each)?;
            above.copy_from_slice(&line[1..]);
            let from = line[1..].chunks(self.each);
            let to = place[1..].chunks_mut(self.each);
            let to = to.skip(pass.x).step_by(pass.right);
            from.zip(to).for_each(|(from, to)| to.copy_from_slice(from));
        }
        Ok(())
    }
}

/// Makes a line, the number of its filter and its bytes, what it was before it was filtered.
fn unfilter(line: &mut [u8], above: &[u8], each: usize) -> Result<(), String> {
    let Some((filter, row)) = line.split_first_mut() else {
        return Ok(());
    };
    for i in 0..row.len() {
        let left = i.checked_sub(each);
        let a = left.map_or(0, |left| row[left]);
        let b = above[i];
        let c = left.map_or(0, |left| above[left]);
        let guess = match *filter {
            0 => 0,
            1 => a,
            2 => b,
            3 => ((u16::from(a) + u16::from(b)) / 2) as u8,
            4 => paeth(a, b, c),
            other => return Err(format!("a row of it has filter {other}, and 4 is the last")),
        };
        row[i] = row[i].wrapping_add(guess);
    }
    Ok(())
}

/// Of the bytes left, above and above left the one that is nearest to left + above − above left.
fn paeth(a: u8, b: u8, c: u8) -> u8 {
    let [left, above, corner] = [a, b, c].map(i16::from);
    let far = |byte: i16| (left + above - corner - byte).abs();
    if far(left) <= far(above) && far(left) <= far(corner) {
        a
    } else if far(above) <= far(corner) {
        b
    } else {
        c
    }
}

#[cfg(test)]
mod tests {
    use super::*;

    #[test]
    fn the_guess_of_paeth_is_the_nearest_byte() {
        // 18, 9 and 150 are nearest to one byte; from 1 left and above are as far.
        assert_eq!(paeth(10, 20, 12), 20);
        assert_eq!(paeth(10, 20, 21), 10);
        assert_eq!(paeth(200, 100, 150), 150);
        assert_eq!(paeth(5, 5, 9), 5);
    }

    #[test]
    fn a_filter_that_there_is_not_is_refused() {
        let answer = unfilter(&mut [5, 1, 2], &[0, 0], 2);
        assert!(answer.is_err_and(|words| words.contains("filter 5")));
        assert!(unfilter(&mut [4, 1, 2], &[0, 0], 2).is_ok());
    }

    #[test]
    fn other_files_are_left_to_libpng() {
        let mut header = [0, 0, 0, 1, 0, 0, 0, 1, 16, 0, 0, 0, 1];
        let found = |header: [u8; HEADER]| {
            let mut file = chunks::empty();
            chunks::push(&mut file, *b"IHDR", &header);
            super::header(&file)
        };
        assert_eq!(found(header), Some(header));
        header[DEPTH] = 8;
        assert_eq!(found(header), None);
        header[DEPTH] = 16;
        header[INTERLACED] = 0;
        assert_eq!(found(header), None);
    }
}
