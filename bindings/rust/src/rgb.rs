//! Canvases from bytes and to bytes, and sources from bytes, as other programs have pictures.
use crate::detail::{self, area, Detail, Picture, Size};
use crate::{Canvas, Refusal, SourceId, Sources};

/// The bytes of a pixel: red, green, blue.
const RGB: usize = 3;
/// The same with an alpha.
const RGBA: usize = 4;

/// A canvas has no alpha. Its pixels' top bytes are left out, and are 0 in a canvas that is made of
/// bytes.
impl Canvas {
    /// A canvas of bytes: red, green and blue of each pixel, row by row.
    ///
    /// # Errors
    ///
    /// [`Cause::CanvasSize`](crate::Cause::CanvasSize) if a side is not 1 to 4096, or there are not
    /// width × height × 3 bytes; the words say how many there are.
    pub fn from_rgb(width: u32, height: u32, bytes: &[u8]) -> Result<Canvas, Refusal> {
        measured(Picture::Canvas, (width, height), RGB, bytes)?;
        let pixels = bytes.chunks_exact(RGB).map(opaque).collect();
        Canvas::from_pixels(width, height, pixels)
    }

    /// A canvas of bytes: red, green, blue and alpha of each pixel, row by row. The picture is
    /// composed over black: a channel c at alpha a becomes c × a / 255, rounded. So a clear pixel is
    /// black, whatever colour stands behind its alpha.
    ///
    /// ```
    /// use tiglostrema::{Canvas, Source, Sources};
    ///
    /// let bytes = [0xFF, 0x80, 0x00, 0xFF, 0xFF, 0x80, 0x00, 0x80, 0xFF, 0x80, 0x00, 0x00];
    /// let picture = Canvas::from_rgba(3, 1, &bytes)?;
    /// assert_eq!(picture.pixels(), [0xFF8000, 0x804000, 0x000000]);
    ///
    /// // A picture that is read so may be a source.
    /// Sources::new().push(Source::from(&picture))?;
    ///
    /// let refusal = Canvas::from_rgba(3, 1, &bytes[1..]).unwrap_err();
    /// let words = "bytes given for the canvas: 11, not 3 × 1 × 4 = 12 (cause 1)";
    /// assert_eq!(refusal.to_string(), words);
    /// # Ok::<(), tiglostrema::Refusal>(())
    /// ```
    ///
    /// # Errors
    ///
    /// As [`from_rgb`](Canvas::from_rgb), with four bytes a pixel.
    pub fn from_rgba(width: u32, height: u32, bytes: &[u8]) -> Result<Canvas, Refusal> {
        measured(Picture::Canvas, (width, height), RGBA, bytes)?;
        let pixels = bytes.chunks_exact(RGBA).map(over_black).collect();
        Canvas::from_pixels(width, height, pixels)
    }

    /// The picture as bytes: red, green and blue of each pixel, row by row.
    ///
    /// ```
    /// use tiglostrema::Canvas;
    ///
    /// let canvas = Canvas::from_pixels(2, 1, vec![0x112233, 0xFF445566])?;
    /// assert_eq!(canvas.to_rgb(), [0x11, 0x22, 0x33, 0x44, 0x55, 0x66]);
    /// # Ok::<(), tiglostrema::Refusal>(())
    /// ```
    #[must_use]
    pub fn to_rgb(&self) -> Vec<u8> {
        let mut bytes = vec![0; self.pixels().len() * RGB];
        write_rgb(self.pixels(), &mut bytes);
        bytes
    }

    /// As [`to_rgb`](Canvas::to_rgb), into bytes that are kept from picture to picture: new memory
    /// costs more than the bytes that are written to it.
    ///
    /// ```
    /// use tiglostrema::Canvas;
    ///
    /// let canvas = Canvas::from_pixels(2, 1, vec![0x112233, 0x445566])?;
    /// let mut frame = [0; 6];
    /// canvas.rgb_into(&mut frame)?;
    /// assert_eq!(frame, [0x11, 0x22, 0x33, 0x44, 0x55, 0x66]);
    /// # Ok::<(), tiglostrema::Refusal>(())
    /// ```
    ///
    /// # Errors
    ///
    /// [`Cause::CanvasSize`](crate::Cause::CanvasSize) if there are not width × height × 3 bytes.
    pub fn rgb_into(&self, bytes: &mut [u8]) -> Result<(), Refusal> {
        measured(Picture::Canvas, (self.width(), self.height()), RGB, bytes)?;
        write_rgb(self.pixels(), bytes);
        Ok(())
    }

    /// The picture as bytes: red, green, blue and an alpha of 255 for each pixel, row by row.
    ///
    /// ```
    /// use tiglostrema::Canvas;
    ///
    /// let canvas = Canvas::from_pixels(2, 1, vec![0x112233, 0x445566])?;
    /// assert_eq!(canvas.to_rgba(), [0x11, 0x22, 0x33, 0xFF, 0x44, 0x55, 0x66, 0xFF]);
    /// assert_eq!(Canvas::from_rgba(2, 1, &canvas.to_rgba())?, canvas);
    /// # Ok::<(), tiglostrema::Refusal>(())
    /// ```
    #[must_use]
    pub fn to_rgba(&self) -> Vec<u8> {
        let mut bytes = vec![0; self.pixels().len() * RGBA];
        write_rgba(self.pixels(), &mut bytes);
        bytes
    }

    /// As [`to_rgba`](Canvas::to_rgba), into bytes that are kept from picture to picture.
    ///
    /// # Errors
    ///
    /// [`Cause::CanvasSize`](crate::Cause::CanvasSize) if there are not width × height × 4 bytes.
    pub fn rgba_into(&self, bytes: &mut [u8]) -> Result<(), Refusal> {
        measured(Picture::Canvas, (self.width(), self.height()), RGBA, bytes)?;
        write_rgba(self.pixels(), bytes);
        Ok(())
    }
}

/// A camera's frames, written over the last one where it stands: nothing is allocated.
impl Sources {
    /// Writes a source's pixels from bytes: red, green and blue of each pixel, row by row. Its size
    /// stays.
    ///
    /// ```
    /// use tiglostrema::{Source, Sources};
    ///
    /// let mut sources = Sources::new();
    /// let camera = sources.push(Source::new(2, 1, &[0, 0])?)?;
    /// sources.write_rgb(camera, &[0x11, 0x22, 0x33, 0x44, 0x55, 0x66])?;
    /// assert_eq!(sources.get(camera).unwrap().pixels(), [0x112233, 0x445566]);
    ///
    /// let refusal = sources.write_rgb(camera, &[0; 5]).unwrap_err();
    /// let words = "bytes given for the source: 5, not 2 × 1 × 3 = 6 (cause 2)";
    /// assert_eq!(refusal.to_string(), words);
    /// # Ok::<(), tiglostrema::Refusal>(())
    /// ```
    ///
    /// # Errors
    ///
    /// [`Cause::NoSuchSource`](crate::Cause::NoSuchSource) if there is no such source,
    /// [`Cause::SourceTable`](crate::Cause::SourceTable) if there are not width × height × 3 bytes.
    pub fn write_rgb(&mut self, source: impl Into<SourceId>, bytes: &[u8]) -> Result<(), Refusal> {
        self.write(source.into(), RGB, bytes, opaque)
    }

    /// As [`write_rgb`](Sources::write_rgb), from red, green, blue and alpha: composed over black, as
    /// [`Canvas::from_rgba`] does.
    ///
    /// # Errors
    ///
    /// As [`write_rgb`](Sources::write_rgb), with four bytes a pixel.
    pub fn write_rgba(&mut self, source: impl Into<SourceId>, bytes: &[u8]) -> Result<(), Refusal> {
        self.write(source.into(), RGBA, bytes, over_black)
    }

    /// Writes a source's pixels, each from so many bytes by a rule.
    fn write(
        &mut self,
        source: SourceId,
        each: usize,
        bytes: &[u8],
        rule: impl Fn(&[u8]) -> u32,
    ) -> Result<(), Refusal> {
        let size = self.table().present(source)?;
        measured(Picture::Source, size, each, bytes)?;
        if let Some(pixels) = self.pixels_mut(source) {
            let written = bytes.chunks_exact(each).map(rule);
            pixels
                .iter_mut()
                .zip(written)
                .for_each(|(to, from)| *to = from);
        }
        Ok(())
    }
}

/// That a picture may have this size, and that there are as many bytes as its pixels take.
fn measured(picture: Picture, size: Size, each: usize, bytes: &[u8]) -> Result<(), Detail> {
    detail::sides(picture, size)?;
    if bytes.len() == area(size) * each {
        Ok(())
    } else {
        Err(Detail::Bytes(picture, size, each, bytes.len()))
    }
}

/// A pixel of red, green and blue.
fn opaque(rgb: &[u8]) -> u32 {
    u32::from_be_bytes([0, rgb[0], rgb[1], rgb[2]])
}

/// A pixel of red, green, blue and alpha, composed over black.
fn over_black(rgba: &[u8]) -> u32 {
    let alpha = u32::from(rgba[3]);
    let channel = |c: u8| (u32::from(c) * alpha + 127) / 255;
    channel(rgba[0]) << 16 | channel(rgba[1]) << 8 | channel(rgba[2])
}

/// Three bytes for each pixel. Four pixels are written at a time, since their twelve bytes are two
/// stores and not twelve.
fn write_rgb(pixels: &[u32], bytes: &mut [u8]) {
    let fours = pixels.len() / 4 * 4;
    let (even, rest) = bytes.split_at_mut(fours * RGB);
    for (pixels, bytes) in pixels.chunks_exact(4).zip(even.chunks_exact_mut(4 * RGB)) {
        let [a, b, c, d] = [0, 1, 2, 3].map(|i| u64::from(pixels[i].swap_bytes() >> 8));
        bytes[..8].copy_from_slice(&(a | b << 24 | c << 48).to_le_bytes());
        bytes[8..].copy_from_slice(&((c >> 16 | d << 8) as u32).to_le_bytes());
    }
    let last = pixels[fours..].iter().flat_map(|pixel| rgb(*pixel));
    rest.iter_mut().zip(last).for_each(|(to, from)| *to = from);
}

/// Four bytes for each pixel, the last of them 255.
fn write_rgba(pixels: &[u32], bytes: &mut [u8]) {
    for (pixel, bytes) in pixels.iter().zip(bytes.chunks_exact_mut(RGBA)) {
        bytes.copy_from_slice(&(pixel << 8 | 255).to_be_bytes());
    }
}

/// The three bytes of a pixel.
fn rgb(pixel: u32) -> [u8; RGB] {
    let [_, r, g, b] = pixel.to_be_bytes();
    [r, g, b]
}
