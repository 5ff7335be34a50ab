//! Pictures of `0x00RRGGBB` words, read from and written to PNG files by libpng.
mod chunks;
mod interlace;
mod libpng;
mod zlib;

use std::fmt;
use std::fs;
use std::io;
use std::path::Path;

/// The longest picture that is decoded: enough for sixteen canvases of 4096 by 4096.
const MOST_PIXELS: u64 = 1 << 28;

/// A picture: its rows from the top, each from the left.
#[derive(Clone, Debug, PartialEq, Eq)]
pub struct Picture {
    width: u32,
    height: u32,
    pixels: Vec<u32>,
}

/// Why a file is no picture, or a picture no file.
#[derive(Debug)]
pub enum Error {
    /// The file could not be read or written.
    File(io::Error),
    /// The bytes are no PNG file, or libpng cannot make one; libpng's own words.
    Png(String),
    /// The file's picture is too large to be held.
    TooLarge { width: u32, height: u32 },
}

impl fmt::Display for Error {
    fn fmt(&self, f: &mut fmt::Formatter<'_>) -> fmt::Result {
        match self {
            Error::File(error) => write!(f, "{error}"),
            Error::Png(words) => write!(f, "not a PNG file that can be read: {words}"),
            Error::TooLarge { width, height } => {
                write!(f, "a picture of {width}x{height} is too large to be held")
            }
        }
    }
}

impl std::error::Error for Error {}

impl Picture {
    /// A picture of the given pixels; nothing where they are not `width` × `height`.
    pub fn new(width: u32, height: u32, pixels: Vec<u32>) -> Option<Picture> {
        let right = pixels.len() as u64 == u64::from(width) * u64::from(height);
        right.then_some(Picture {
            width,
            height,
            pixels,
        })
    }

    /// The pixels of a row.
    pub fn width(&self) -> u32 {
        self.width
    }

    /// The rows.
    pub fn height(&self) -> u32 {
        self.height
    }

    /// The pixels, row by row.
    pub fn pixels(&self) -> &[u32] {
        &self.pixels
    }

    /// Reads a PNG file of any sort as 8-bit sRGB; the top bytes are 0.
    ///
    /// - **Depth**: samples of 1, 2 and 4 bits are spread evenly over 0 to 255; a 16-bit sample v becomes v / 257,
    ///   rounded.
    /// - **Colour space**: where the file says nothing (neither `sRGB` nor `gAMA`), its samples are sRGB, those of 16
    ///   bits too. A `gAMA` of g other than 1 / 2.2 (by more than a twentieth) is heeded: a sample s, 0 to 1, becomes
    ///   s to the power of 1 / (2.2 g), so that linear samples (g = 1) are brightened. libpng has a table for that: it
    ///   is exact for 8 bits; linear samples of 16 bits are off by 1 at most, and below 416 of 65535 by 8 at most.
    ///   Other primaries (`cHRM`) are not heeded.
    /// - **Alpha**: a source has none. Where the file has one, also by a `tRNS`, the picture is composed over black,
    ///   each channel c at alpha a becoming c × a / 255, rounded, after both have become 8 bits. A background that the
    ///   file proposes (`bKGD`) is not heeded.
    /// - **Interlaced** files are read as others are.
    pub fn read(path: &Path) -> Result<Picture, Error> {
        Picture::decode(&fs::read(path).map_err(Error::File)?)
    }

    /// Writes an 8-bit RGB file; the pixels' top bytes are left out.
    pub fn write(&self, path: &Path) -> Result<(), Error> {
        fs::write(path, self.encode()?).map_err(Error::File)
    }

    /// A PNG file's bytes as a picture; see [`Picture::read`].
    pub fn decode(bytes: &[u8]) -> Result<Picture, Error> {
        let opened = opened(bytes)?;
        let (width, height) = (opened.width(), opened.height());
        let rgba = match interlace::header(bytes) {
            Some(header) => interlace::straightened(bytes, header)
                .and_then(|file| libpng::Opened::new(&file)?.finish()),
            None => opened.finish(),
        };
        let rgba = rgba.map_err(Error::Png)?;
        let pixels = rgba.chunks_exact(4).map(over_black).collect();
        Ok(Picture {
            width,
            height,
            pixels,
        })
    }

    /// The width and the height of a PNG file's picture. Only what stands before the pixels is read, so a file that
    /// is cut short behind it has a size, too.
    pub fn size(bytes: &[u8]) -> Result<(u32, u32), Error> {
        let opened = opened(bytes)?;
        Ok((opened.width(), opened.height()))
    }

    /// The picture as a PNG file's bytes; see [`Picture::write`].
    pub fn encode(&self) -> Result<Vec<u8>, Error> {
        let rgb: Vec<u8> = self
            .pixels
            .iter()
            .flat_map(|pixel| {
                let [_, r, g, b] = pixel.to_be_bytes();
                [r, g, b]
            })
            .collect();
        libpng::encode(self.width, self.height, &rgb).map_err(Error::Png)
    }
}

/// A PNG file whose header has been read, of a picture that can be held.
fn opened(bytes: &[u8]) -> Result<libpng::Opened<'_>, Error> {
    let opened = libpng::Opened::new(bytes).map_err(Error::Png)?;
    let (width, height) = (opened.width(), opened.height());
    match u64::from(width) * u64::from(height) > MOST_PIXELS {
        true => Err(Error::TooLarge { width, height }),
        false => Ok(opened),
    }
}

/// The word of a pixel's red, green, blue and alpha.
fn over_black(rgba: &[u8]) -> u32 {
    let alpha = u32::from(rgba[3]);
    let shown = |channel: &u8| (u32::from(*channel) * alpha + 127) / 255;
    rgba[..3].iter().fold(0, |word, c| word << 8 | shown(c))
}

#[cfg(test)]
mod tests {
    use super::*;

    #[test]
    fn a_picture_comes_back_without_its_top_bytes() {
        let picture = Picture::new(2, 1, vec![0xAA11_2233, 0x00FF_FFFE]).unwrap();
        let back = Picture::decode(&picture.encode().unwrap()).unwrap();
        assert_eq!((back.width(), back.height()), (2, 1));
        assert_eq!(back.pixels(), [0x0011_2233, 0x00FF_FFFE]);
    }

    #[test]
    fn pixels_have_to_fit_the_size() {
        assert!(Picture::new(2, 2, vec![0; 3]).is_none());
    }

    #[test]
    fn bytes_that_are_no_png_file_are_told_in_words() {
        for bytes in [&b""[..], b"GIF89a", b"\x89PNG\r\n\x1a\n"] {
            assert!(matches!(Picture::decode(bytes), Err(Error::Png(words)) if !words.is_empty()));
            assert!(matches!(Picture::size(bytes), Err(Error::Png(words)) if !words.is_empty()));
        }
    }

    #[test]
    fn a_file_cut_short_is_refused_but_has_a_size() {
        let picture = Picture::new(8, 8, (0..64).map(|n| n * 0x30507).collect()).unwrap();
        let bytes = picture.encode().unwrap();
        let half = &bytes[..bytes.len() / 2];
        assert!(Picture::decode(half).is_err());
        assert_eq!(Picture::size(half).unwrap(), (8, 8));
    }

    /// Grey with alpha, 2 by 1: white at alpha 128, and 200 at 255.
    const GREY_ALPHA: &[u8] = &[
        0x89, 0x50, 0x4E, 0x47, 0x0D, 0x0A, 0x1A, 0x0A, 0x00, 0x00, 0x00, 0x0D, 0x49, 0x48, 0x44,
        0x52, 0x00, 0x00, 0x00, 0x02, 0x00, 0x00, 0x00, 0x01, 0x08, 0x04, 0x00, 0x00, 0x00, 0x5E,
        0x2B, 0xB7, 0x01, 0x00, 0x00, 0x00, 0x0D, 0x49, 0x44, 0x41, 0x54, 0x78, 0xDA, 0x63, 0xF8,
        0xDF, 0x70, 0xE2, 0x3F, 0x00, 0x08, 0x10, 0x03, 0x47, 0xC2, 0xDC, 0x11, 0x9B, 0x00, 0x00,
        0x00, 0x00, 0x49, 0x45, 0x4E, 0x44, 0xAE, 0x42, 0x60, 0x82,
    ];

    #[test]
    fn transparent_pixels_are_composed_over_black() {
        let picture = Picture::decode(GREY_ALPHA).unwrap();
        assert_eq!(picture.pixels(), [0x0080_8080, 0x00C8_C8C8]);
    }
}
