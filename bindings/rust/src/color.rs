//! Colours and pixels.

/// A colour with straight alpha: 0 is clear, 255 is full.
#[derive(Clone, Copy, Debug, Default, PartialEq, Eq, Hash)]
pub struct Color {
    /// Red.
    pub r: u8,
    /// Green.
    pub g: u8,
    /// Blue.
    pub b: u8,
    /// Alpha.
    pub a: u8,
}

impl Color {
    /// Nothing: all channels 0.
    pub const CLEAR: Color = Color::rgba(0, 0, 0, 0);
    /// Full black.
    pub const BLACK: Color = Color::rgb(0, 0, 0);
    /// Full white.
    pub const WHITE: Color = Color::rgb(255, 255, 255);

    /// A full colour.
    #[must_use]
    pub const fn rgb(r: u8, g: u8, b: u8) -> Color {
        Color::rgba(r, g, b, 255)
    }

    /// A colour with alpha.
    #[must_use]
    pub const fn rgba(r: u8, g: u8, b: u8, a: u8) -> Color {
        Color { r, g, b, a }
    }

    /// The full colour of a hexadecimal number, as `0x1A73E8`. The top byte is not looked at, so
    /// this also takes a pixel.
    #[must_use]
    pub const fn hex(rgb: u32) -> Color {
        Color::rgb((rgb >> 16) as u8, (rgb >> 8) as u8, rgb as u8)
    }

    /// The same colour with another alpha.
    #[must_use]
    pub const fn with_alpha(self, a: u8) -> Color {
        Color { a, ..self }
    }

    /// The colour as a canvas's pixel, `0x00RRGGBB`, without its alpha.
    #[must_use]
    pub const fn to_pixel(self) -> u32 {
        (self.r as u32) << 16 | (self.g as u32) << 8 | self.b as u32
    }
}
