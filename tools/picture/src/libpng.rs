//! libpng's simplified interface (`png_image_*`), which reports errors by its answers and not by jumps.
use std::ffi::{c_char, c_int, c_void, CStr};
use std::ptr;

const VERSION: u32 = 1; // PNG_IMAGE_VERSION
const RGB: u32 = 2; // PNG_FORMAT_RGB: three bytes a pixel, sRGB
const RGBA: u32 = 3; // PNG_FORMAT_RGBA: four bytes a pixel, the alpha not multiplied in

/// `PNG_IMAGE_FLAG_16BIT_sRGB`: 16-bit samples are sRGB where no chunk says what they are. Without it libpng takes
/// them as linear, and 8-bit ones as sRGB. A chunk that says so is heeded with it, too.
const SRGB_BY_DEFAULT: u32 = 4;

/// `png_image`.
#[repr(C)]
struct Image {
    opaque: *mut c_void,
    version: u32,
    width: u32,
    height: u32,
    format: u32,
    flags: u32,
    colormap_entries: u32,
    warning_or_error: u32,
    message: [c_char; 64],
}

#[link(name = "png16")]
extern "C" {
    fn png_image_begin_read_from_memory(
        image: *mut Image,
        memory: *const c_void,
        size: usize,
    ) -> c_int;
    fn png_image_finish_read(
        image: *mut Image,
        background: *const c_void,
        buffer: *mut c_void,
        row_stride: i32,
        colormap: *mut c_void,
    ) -> c_int;
    fn png_image_write_to_memory(
        image: *mut Image,
        memory: *mut c_void,
        memory_bytes: *mut usize,
        convert_to_8_bit: c_int,
        buffer: *const c_void,
        row_stride: i32,
        colormap: *const c_void,
    ) -> c_int;
    fn png_image_free(image: *mut Image);
}

impl Image {
    fn new(width: u32, height: u32, format: u32) -> Image {
        Image {
            opaque: ptr::null_mut(),
            version: VERSION,
            width,
            height,
            format,
            flags: 0,
            colormap_entries: 0,
            warning_or_error: 0,
            message: [0; 64],
        }
    }

    /// The length of its pixels; a format's low bits are its channels less one.
    fn bytes(&self) -> usize {
        self.width as usize * self.height as usize * (self.format as usize + 1)
    }

    /// libpng's words about what went wrong.
    fn words(&self) -> String {
        // SAFETY: libpng ends the message by a zero within its 64 bytes, and it starts as zeros.
        let words = unsafe { CStr::from_ptr(self.message.as_ptr()) };
        words.to_string_lossy().into_owned()
    }
}

impl Drop for Image {
    fn drop(&mut self) {
        // SAFETY: `opaque` is null or libpng's own; the call sets it to null.
        unsafe { png_image_free(self) }
    }
}

/// A PNG file whose header has been read.
pub struct Opened<'a> {
    // Boxed, for libpng keeps its address to report errors.
    image: Box<Image>,
    // libpng reads these bytes again in `finish`.
    _bytes: &'a [u8],
}

impl<'a> Opened<'a> {
    pub fn new(bytes: &'a [u8]) -> Result<Opened<'a>, String> {
        let mut image = Box::new(Image::new(0, 0, RGBA));
        // SAFETY: the image is as libpng asks (zeros and the version) and stays at its place, and the bytes
        // are lent for 'a, which outlives the image.
        let read = unsafe {
            png_image_begin_read_from_memory(&mut *image, bytes.as_ptr().cast(), bytes.len())
        };
        if read == 0 {
            return Err(image.words());
        }
        image.format = RGBA;
        // Not before the header is read, since that sets the flags anew.
        image.flags |= SRGB_BY_DEFAULT;
        Ok(Opened {
            image,
            _bytes: bytes,
        })
    }

    pub fn width(&self) -> u32 {
        self.image.width
    }

    pub fn height(&self) -> u32 {
        self.image.height
    }

    /// The pixels, four bytes each: red, green, blue and alpha.
    pub fn finish(mut self) -> Result<Vec<u8>, String> {
        let mut rgba = vec![0; self.image.bytes()];
        // SAFETY: `rgba` is as long as the size and the format ask with rows that follow one another
        // (stride 0), the bytes are still lent, and neither a background nor a colour map is needed.
        let read = unsafe {
            png_image_finish_read(
                &mut *self.image,
                ptr::null(),
                rgba.as_mut_ptr().cast(),
                0,
                ptr::null_mut(),
            )
        };
        if read == 0 {
            return Err(self.image.words());
        }
        Ok(rgba)
    }
}

/// A PNG file of pixels of three bytes each.
pub fn encode(width: u32, height: u32, rgb: &[u8]) -> Result<Vec<u8>, String> {
    let mut length = 0;
    write(width, height, rgb, None, &mut length)?;
    let mut file = vec![0; length];
    write(width, height, rgb, Some(&mut file), &mut length)?;
    file.truncate(length);
    Ok(file)
}

/// Writes the file into `out`, or measures it; `length` is the file's afterwards.
fn write(
    width: u32,
    height: u32,
    rgb: &[u8],
    out: Option<&mut [u8]>,
    length: &mut usize,
) -> Result<(), String> {
    let mut image = Image::new(width, height, RGB);
    if rgb.len() != image.bytes() {
        return Err(format!("{} bytes for {width}x{height} pixels", rgb.len()));
    }
    let memory = match out {
        Some(out) => {
            *length = out.len();
            out.as_mut_ptr().cast()
        }
        None => ptr::null_mut(),
    };
    // SAFETY: `memory` is null or has `length` bytes, `rgb` is as long as the size and the format ask, and
    // there is no colour map.
    let written = unsafe {
        png_image_write_to_memory(
            &mut image,
            memory,
            length,
            0,
            rgb.as_ptr().cast(),
            0,
            ptr::null(),
        )
    };
    if written == 0 {
        return Err(image.words());
    }
    Ok(())
}
