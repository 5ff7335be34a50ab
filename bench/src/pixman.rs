//! pixman's painting of the rows that it has, where it is installed: build.rs asks pkg-config. Its pictures are words
//! without alpha, as ours. It has no round corners of its own, so its rows cover the whole canvas, square; and it
//! rounds in its own ways, so its pixels are not compared.
use kash::gfx::Canvas;

/// Paints a canvas of `WIDTH` by `HEIGHT`.
pub type Work<'a> = Box<dyn Fn(&mut [u32]) + 'a>;

/// What pixman is asked for. A colour is a word with alpha in its top byte.
#[derive(Clone, Copy)]
pub enum Job<'a> {
    /// The whole canvas in one opaque colour.
    Fill(u32),
    /// A translucent colour over the whole canvas.
    Over(u32),
    /// A source of the canvas's size over it, at an alpha of 255.
    Mixed(&'a Canvas, u8),
    /// A source stretched over the whole canvas, between four of its pixels.
    Stretched(&'a Canvas),
}

/// Why there is no pixman; nothing where there is.
pub fn missing() -> Option<&'static str> {
    (!cfg!(pixman)).then_some("pixman is left out: pkg-config finds no pixman-1")
}

#[cfg(not(pixman))]
pub fn work(_: Job<'_>) -> Option<Work<'_>> {
    None
}

#[cfg(pixman)]
pub use library::work;

#[cfg(pixman)]
mod library {
    use super::{Job, Work};
    use crate::sides::{HEIGHT, WIDTH};
    use kash::gfx::Canvas;
    use std::ptr::{null, null_mut};

    /// 32 bits a pixel: red, green, blue, no alpha.
    const X8R8G8B8: u32 = 0x2002_0888;
    const SRC: u32 = 1;
    const OVER: u32 = 3;
    const PAD: u32 = 2;
    const BILINEAR: u32 = 4;

    #[repr(C)]
    struct Image {
        _private: [u8; 0],
    }

    /// 16 bits a channel, multiplied by alpha.
    #[repr(C)]
    struct Color {
        red: u16,
        green: u16,
        blue: u16,
        alpha: u16,
    }

    /// Numbers of 16 bits and 16 behind the point.
    #[repr(C)]
    struct Transform {
        rows: [[i32; 3]; 3],
    }

    unsafe extern "C" {
        fn pixman_fill(
            bits: *mut u32,
            stride: i32,
            bpp: i32,
            x: i32,
            y: i32,
            w: i32,
            h: i32,
            word: u32,
        ) -> i32;
        fn pixman_image_create_bits_no_clear(
            format: u32,
            w: i32,
            h: i32,
            bits: *mut u32,
            stride: i32,
        ) -> *mut Image;
        fn pixman_image_create_solid_fill(color: *const Color) -> *mut Image;
        fn pixman_image_set_transform(image: *mut Image, transform: *const Transform) -> i32;
        fn pixman_image_set_filter(
            image: *mut Image,
            filter: u32,
            params: *const i32,
            count: i32,
        ) -> i32;
        fn pixman_image_set_repeat(image: *mut Image, repeat: u32);
        fn pixman_image_unref(image: *mut Image) -> i32;
        fn pixman_image_composite32(
            op: u32,
            src: *mut Image,
            mask: *mut Image,
            dest: *mut Image,
            src_x: i32,
            src_y: i32,
            mask_x: i32,
            mask_y: i32,
            dest_x: i32,
            dest_y: i32,
            width: i32,
            height: i32,
        );
    }

    const SIZE: [i32; 2] = [WIDTH as i32, HEIGHT as i32];

    pub fn work(job: Job<'_>) -> Option<Work<'_>> {
        Some(match job {
            Job::Fill(color) => Box::new(move |px| fill(px, color)),
            Job::Over(color) => {
                let color = Picture::solid(color);
                Box::new(move |px| composite(OVER, &color, None, px))
            }
            Job::Mixed(src, alpha) => {
                let (src, mask) = (Picture::of(src), Picture::solid((alpha as u32) << 24));
                Box::new(move |px| composite(OVER, &src, Some(&mask), px))
            }
            Job::Stretched(src) => {
                let src = Picture::stretched(src);
                Box::new(move |px| composite(SRC, &src, None, px))
            }
        })
    }

    /// An image that pixman holds.
    struct Picture(*mut Image);

    impl Picture {
        /// pixman gives no image where memory is short.
        fn new(image: *mut Image) -> Picture {
            assert!(!image.is_null(), "pixman gives no image");
            Picture(image)
        }

        /// Of these pixels, which have to outlive it.
        fn over(px: *mut u32, [w, h]: [i32; 2]) -> Picture {
            // Safe: the callers' pixels are w times h words, and 4 w is a multiple of 4.
            Picture::new(unsafe { pixman_image_create_bits_no_clear(X8R8G8B8, w, h, px, 4 * w) })
        }

        /// A source. pixman only reads it.
        fn of(src: &Canvas) -> Picture {
            assert_eq!(src.px.len(), src.w as usize * src.h as usize);
            Picture::over(src.px.as_ptr().cast_mut(), [src.w, src.h])
        }

        fn solid(word: u32) -> Picture {
            let [alpha, red, green, blue] = word.to_be_bytes().map(u32::from);
            let of = |channel: u32| (channel * alpha * 257 / 255) as u16;
            let color = Color {
                red: of(red),
                green: of(green),
                blue: of(blue),
                alpha: (alpha * 257) as u16,
            };
            // Safe: the colour is read before the call ends.
            Picture::new(unsafe { pixman_image_create_solid_fill(&color) })
        }

        /// A source stretched to the canvas's size.
        fn stretched(src: &Canvas) -> Picture {
            let scale = |from: i32, to: i32| (from << 16) / to;
            let transform = Transform {
                rows: [
                    [scale(src.w, SIZE[0]), 0, 0],
                    [0, scale(src.h, SIZE[1]), 0],
                    [0, 0, 1 << 16],
                ],
            };
            let picture = Picture::of(src);
            // Safe: pixman copies the transform, and the filter has no numbers.
            let set = unsafe {
                pixman_image_set_repeat(picture.0, PAD);
                [
                    pixman_image_set_transform(picture.0, &transform),
                    pixman_image_set_filter(picture.0, BILINEAR, null(), 0),
                ]
            };
            assert_eq!(set, [1, 1], "pixman takes no transform or filter");
            picture
        }
    }

    impl Drop for Picture {
        fn drop(&mut self) {
            // Safe: the image is this value's own.
            unsafe { pixman_image_unref(self.0) };
        }
    }

    fn fill(px: &mut [u32], color: u32) {
        let [w, h] = SIZE;
        assert_eq!(px.len(), WIDTH * HEIGHT);
        // Safe: the canvas has h rows of w words.
        let done = unsafe { pixman_fill(px.as_mut_ptr(), w, 32, 0, 0, w, h, color) };
        assert_eq!(done, 1, "pixman does not fill");
    }

    fn composite(op: u32, src: &Picture, mask: Option<&Picture>, px: &mut [u32]) {
        let [w, h] = SIZE;
        assert_eq!(px.len(), WIDTH * HEIGHT);
        let onto = Picture::over(px.as_mut_ptr(), SIZE);
        let mask = mask.map_or(null_mut(), |mask| mask.0);
        // Safe: all images are alive, and the canvas is this call's alone.
        unsafe { pixman_image_composite32(op, src.0, mask, onto.0, 0, 0, 0, 0, 0, 0, w, h) };
    }
}
