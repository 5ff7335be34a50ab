//! PNG files written byte by byte, so that what a test reads owes nothing to libpng.
#![allow(dead_code)] // no test uses all of it
mod adam7;
mod filter;
mod zlib;

/// The bytes of a chunk of pixels, at most: few, so that most files have several.
const PART: usize = 500;

/// What a pixel's samples are; the numbers are PNG's colour types.
#[derive(Clone, Copy, Debug, PartialEq, Eq)]
pub enum Kind {
    Grey = 0,
    Rgb = 2,
    Palette = 3,
    GreyAlpha = 4,
    Rgba = 6,
}

impl Kind {
    /// The samples of a pixel.
    pub fn channels(self) -> usize {
        match self {
            Kind::Grey | Kind::Palette => 1,
            Kind::GreyAlpha => 2,
            Kind::Rgb => 3,
            Kind::Rgba => 4,
        }
    }
}

/// A file before it is written.
#[derive(Clone, Debug)]
pub struct File {
    pub width: usize,
    pub height: usize,
    pub kind: Kind,
    /// The bits of a sample.
    pub depth: u8,
    /// Whether the pixels come in the seven passes of Adam7.
    pub interlaced: bool,
    /// The chunks between the header and the pixels, in their order.
    pub chunks: Vec<([u8; 4], Vec<u8>)>,
    /// The samples of all pixels, row by row.
    pub samples: Vec<u16>,
}

impl File {
    /// The file's bytes.
    pub fn bytes(&self) -> Vec<u8> {
        let mut out = b"\x89PNG\r\n\x1a\n".to_vec();
        chunk(&mut out, *b"IHDR", &self.header());
        for (name, data) in &self.chunks {
            chunk(&mut out, *name, data);
        }
        for part in zlib::stored(&self.rows()).chunks(PART) {
            chunk(&mut out, *b"IDAT", part);
        }
        chunk(&mut out, *b"IEND", &[]);
        out
    }

    fn header(&self) -> Vec<u8> {
        let mut header = Vec::new();
        header.extend_from_slice(&(self.width as u32).to_be_bytes());
        header.extend_from_slice(&(self.height as u32).to_be_bytes());
        header.extend_from_slice(&[self.depth, self.kind as u8, 0, 0]);
        header.push(u8::from(self.interlaced));
        header
    }

    /// The rows as they stand in the file, those of one pass behind those of another.
    fn rows(&self) -> Vec<u8> {
        let passes = match self.interlaced {
            true => &adam7::PASSES[..],
            false => &[adam7::WHOLE],
        };
        passes.iter().flat_map(|pass| self.lines(pass)).collect()
    }

    /// The rows of a pass, each behind the number of its filter. The filters take turns.
    fn lines(&self, pass: &adam7::Pass) -> Vec<u8> {
        let bits = usize::from(self.depth) * self.kind.channels();
        let (mut out, mut above) = (Vec::new(), Vec::new());
        for (number, (y, columns)) in pass.rows(self.width, self.height).iter().enumerate() {
            let row = packed(self.row(*y, columns), self.depth);
            above.resize(row.len(), 0);
            let filter = number % filter::ALL.len();
            out.push(filter as u8);
            out.extend(filter::filtered(
                filter::ALL[filter],
                &row,
                &above,
                bits.div_ceil(8),
            ));
            above = row;
        }
        out
    }

    /// The samples of some pixels of a row.
    fn row<'a>(&'a self, y: usize, columns: &'a [usize]) -> impl Iterator<Item = u16> + 'a {
        let each = self.kind.channels();
        let pixel = move |x: &usize| {
            let from = (y * self.width + x) * each;
            &self.samples[from..from + each]
        };
        columns.iter().flat_map(pixel).copied()
    }
}

/// Samples side by side, the first in the highest bits; the last byte is filled up with zeros.
fn packed(samples: impl Iterator<Item = u16>, depth: u8) -> Vec<u8> {
    let bits =
        samples.flat_map(|sample| (0..depth).rev().map(move |bit| (sample >> bit & 1) as u8));
    let mut bits: Vec<u8> = bits.collect();
    bits.resize(bits.len().next_multiple_of(8), 0);
    let byte = |eight: &[u8]| eight.iter().fold(0, |byte, bit| byte << 1 | bit);
    bits.chunks(8).map(byte).collect()
}

/// A chunk: its length, its name, its bytes and the check over name and bytes.
fn chunk(out: &mut Vec<u8>, name: [u8; 4], data: &[u8]) {
    out.extend_from_slice(&(data.len() as u32).to_be_bytes());
    let from = out.len();
    out.extend_from_slice(&name);
    out.extend_from_slice(data);
    let check = zlib::crc32(&out[from..]);
    out.extend_from_slice(&check.to_be_bytes());
}
