//! The proved functions, as crate `c_leaves` exports them. They take any numbers, so a call is safe.
//! A colour that is an answer comes as a word: alpha in the top byte, then red, green, blue.
//! The painters stand in [`shapes`], [`copies`] and [`panels`], the tests of a block in [`blocks`], and the
//! library itself in [`surface`].

pub mod blocks;
pub mod copies;
pub mod panels;
pub mod shapes;
pub mod surface;

/// A canvas's size, and the clip as x0, y0, x1, y1.
#[derive(Clone, Copy, Debug)]
pub struct Onto {
    pub w: usize,
    pub h: usize,
    pub clip: [i32; 4],
}

unsafe extern "C" {
    // mathf
    #[link_name = "leaf_floor"]
    pub safe fn floor(x: f32) -> f32;
    #[link_name = "leaf_ceil"]
    pub safe fn ceil(x: f32) -> f32;
    #[link_name = "leaf_sqrt"]
    pub safe fn sqrt(x: f32) -> f32;
    #[link_name = "leaf_to_i32"]
    pub safe fn to_i32(x: f32) -> i32;
    #[link_name = "leaf_to_u32"]
    pub safe fn to_u32(x: f32) -> u32;
    #[link_name = "leaf_to_u8"]
    pub safe fn to_u8(x: f32) -> u8;
    #[link_name = "leaf_of_i32"]
    pub safe fn of_i32(n: i32) -> f32;
    #[link_name = "leaf_of_u32"]
    pub safe fn of_u32(n: u32) -> f32;
    #[link_name = "leaf_fabs"]
    pub safe fn fabs(x: f32) -> f32;
    #[link_name = "leaf_min"]
    pub safe fn min(a: f32, b: f32) -> f32;
    #[link_name = "leaf_max"]
    pub safe fn max(a: f32, b: f32) -> f32;
    #[link_name = "leaf_clamp"]
    pub safe fn clamp(x: f32, lo: f32, hi: f32) -> f32;
    #[link_name = "leaf_saturate"]
    pub safe fn saturate(x: f32) -> f32;
    #[link_name = "leaf_lerp"]
    pub safe fn lerp(a: f32, b: f32, t: f32) -> f32;

    // color
    #[link_name = "leaf_pix"]
    pub safe fn pix(r: u8, g: u8, b: u8, a: u8) -> u32;
    #[link_name = "leaf_from_pix"]
    pub safe fn from_pix(p: u32) -> u32;
    #[link_name = "leaf_color_mix"]
    pub safe fn color_mix(
        r0: u8,
        g0: u8,
        b0: u8,
        a0: u8,
        r1: u8,
        g1: u8,
        b1: u8,
        a1: u8,
        t: f32,
    ) -> u32;
    #[link_name = "leaf_blend"]
    pub safe fn blend(dst: u32, r: u8, g: u8, b: u8, a: u32) -> u32;
    #[link_name = "leaf_blend_c"]
    pub safe fn blend_c(dst: u32, r: u8, g: u8, b: u8, a: u8, cov: u32) -> u32;
    #[link_name = "leaf_mix_pix"]
    pub safe fn mix_pix(a: u32, b: u32, t256: u32) -> u32;
    #[link_name = "leaf_dim_pix"]
    pub safe fn dim_pix(p: u32, dim: u32) -> u32;

    // geom: `which` picks a field of the answer, 0 to 3 in their order
    #[link_name = "leaf_rect_right"]
    pub safe fn rect_right(x: f32, y: f32, w: f32, h: f32) -> f32;
    #[link_name = "leaf_rect_bottom"]
    pub safe fn rect_bottom(x: f32, y: f32, w: f32, h: f32) -> f32;
    #[link_name = "leaf_rect_cx"]
    pub safe fn rect_cx(x: f32, y: f32, w: f32, h: f32) -> f32;
    #[link_name = "leaf_rect_cy"]
    pub safe fn rect_cy(x: f32, y: f32, w: f32, h: f32) -> f32;
    #[link_name = "leaf_rect_inset"]
    pub safe fn rect_inset(x: f32, y: f32, w: f32, h: f32, d: f32, which: u32) -> f32;
    #[link_name = "leaf_rect_outer_pixels"]
    pub safe fn rect_outer_pixels(x: f32, y: f32, w: f32, h: f32, which: u32) -> i32;
    #[link_name = "leaf_irect_intersect"]
    pub safe fn irect_intersect(
        x0: i32,
        y0: i32,
        x1: i32,
        y1: i32,
        ox0: i32,
        oy0: i32,
        ox1: i32,
        oy1: i32,
        which: u32,
    ) -> i32;
    #[link_name = "leaf_irect_is_empty"]
    pub safe fn irect_is_empty(x0: i32, y0: i32, x1: i32, y1: i32) -> bool;
    #[link_name = "leaf_irect_w"]
    pub safe fn irect_w(x0: i32, y0: i32, x1: i32, y1: i32) -> i64;
    #[link_name = "leaf_irect_h"]
    pub safe fn irect_h(x0: i32, y0: i32, x1: i32, y1: i32) -> i64;
}

/// Rows cross the border as a pointer and a length.
mod rows {
    unsafe extern "C" {
        pub fn leaf_row_fill(dst: *mut u32, dst_len: usize, v: u32);
        pub fn leaf_row_copy(dst: *mut u32, dst_len: usize, src: *const u32, src_len: usize);
        pub fn leaf_row_blend(dst: *mut u32, dst_len: usize, r: u8, g: u8, b: u8, a: u32);
        pub fn leaf_row_mix(
            dst: *mut u32,
            dst_len: usize,
            src: *const u32,
            src_len: usize,
            t256: u32,
        );
    }
}

// Safe: pointer and length are those of a slice, and two slices of which one is `&mut` share nothing.

#[inline]
pub fn row_fill(dst: &mut [u32], v: u32) {
    unsafe { rows::leaf_row_fill(dst.as_mut_ptr(), dst.len(), v) }
}

#[inline]
pub fn row_copy(dst: &mut [u32], src: &[u32]) {
    unsafe { rows::leaf_row_copy(dst.as_mut_ptr(), dst.len(), src.as_ptr(), src.len()) }
}

#[inline]
pub fn row_blend(dst: &mut [u32], r: u8, g: u8, b: u8, a: u32) {
    unsafe { rows::leaf_row_blend(dst.as_mut_ptr(), dst.len(), r, g, b, a) }
}

#[inline]
pub fn row_mix(dst: &mut [u32], src: &[u32], t256: u32) {
    unsafe { rows::leaf_row_mix(dst.as_mut_ptr(), dst.len(), src.as_ptr(), src.len(), t256) }
}
