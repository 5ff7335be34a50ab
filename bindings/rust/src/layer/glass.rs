//! Kind 4.
use super::{InBlock, Kind};
use crate::block::{
    Reader, Writer, BEZEL, BLUR, BRIGHTNESS, COLOR, RADIUS, SATURATION, SPEC, TABLE,
};
use crate::{Color, IRect, Rect};

/// The entries of a displacement table.
pub const DISPLACEMENT_LEN: usize = 33;

/// An entry is at most this many times the bezel. The float nearest 1.6 is 3FCCCCCD.
const STEEPEST: f32 = 1.6;

/// A panel of frosted glass: what lies beneath it, blurred, tinted, and bent at its bezel
/// (`glass`).
///
/// A panel draws its blur from beyond its own edge: from its rectangle grown on each side by
/// 2 × blur + the largest displacement + 3 pixels. A source that shows there stains the whole
/// panel: see [`stain`](crate::stain).
///
/// ```
/// use tiglostrema::{play, Canvas, Color, Fill, Glass, Rect, Rundown, Scratch, Sources};
///
/// let mut rundown = Rundown::new();
/// rundown.add(1, Fill::new(Rect::new(0.0, 0.0, 16.0, 32.0), Color::WHITE))?;
/// rundown.add(2, Glass::new(Rect::new(8.0, 8.0, 16.0, 16.0), 4.0))?;
///
/// let mut canvas = Canvas::new(32, 32)?;
/// play(&rundown, &mut canvas, &Sources::new(), &mut Scratch::new())?;
/// // Beside the panel the edge between white and black is sharp, behind it blurred.
/// assert_eq!(canvas.pixel(15, 4), Some(0xFFFFFF));
/// assert_eq!(canvas.pixel(16, 4), Some(0x000000));
/// let row: Vec<_> = (12..20).map(|x| canvas.pixel(x, 16).unwrap() & 255).collect();
/// assert_eq!(row, [234, 212, 184, 148, 106, 70, 42, 21]);
/// # Ok::<(), tiglostrema::Refusal>(())
/// ```
#[derive(Clone, Copy, Debug, PartialEq)]
#[non_exhaustive]
#[must_use = "a layer paints nothing until it is added, and a `with_` method answers a changed copy"]
pub struct Glass {
    /// The panel: x, y −16384 to 16384, width and height 0 to 16384. One narrower or lower than 2
    /// is not painted.
    pub rect: Rect,
    /// The corners' radius, 0 to 8192; at most half a side has an effect.
    pub radius: f32,
    /// The blur, 0 to 64.
    pub blur: f32,
    /// The tint; its alpha says how strong it is, and 255 is not quite full.
    pub tint: Color,
    /// How strong colours are, 0 (grey) to 8; at 1 they stay.
    pub saturation: f32,
    /// What is added to all channels, −1 to 1.
    pub brightness: f32,
    /// The bezel's width, 0 to 256. Up to 0.5 nothing is bent.
    pub bezel: f32,
    /// The strength of the highlight, 0 to 1. It has no effect but one: at 0, with no bezel and
    /// square corners, a panel is painted as a flat one.
    pub spec: f32,
    /// How far the picture is displaced at each depth of the bezel, from the edge inwards: 0 to
    /// 1024, and 0 at the end.
    ///
    /// Each entry is at most 1.6 × bezel, or the bend would tear: the product is
    /// [`most_displacement`](Glass::most_displacement), which has an example of a table that is made to
    /// suit. An entry that equals it is taken, one above it is refused by
    /// [`Cause::Bend`](crate::Cause::Bend).
    ///
    /// The table is read where the bezel exceeds 0.5; elsewhere it may hold anything, and with a NaN
    /// there a layer is not equal to itself.
    pub displacement: [f32; DISPLACEMENT_LEN],
    /// The pixels that it is kept to.
    pub clip: IRect,
}

impl Glass {
    /// A flat panel that blurs and does nothing else.
    pub fn new(rect: Rect, blur: f32) -> Glass {
        Glass {
            rect,
            radius: 0.0,
            blur,
            tint: Color::CLEAR,
            saturation: 1.0,
            brightness: 0.0,
            bezel: 0.0,
            spec: 0.0,
            displacement: [0.0; DISPLACEMENT_LEN],
            clip: IRect::EVERYWHERE,
        }
    }

    /// Sets the corners' radius.
    pub fn with_radius(self, radius: f32) -> Glass {
        Glass { radius, ..self }
    }

    /// Sets the tint.
    pub fn with_tint(self, tint: Color) -> Glass {
        Glass { tint, ..self }
    }

    /// Sets the saturation.
    pub fn with_saturation(self, saturation: f32) -> Glass {
        Glass { saturation, ..self }
    }

    /// Sets the brightness.
    pub fn with_brightness(self, brightness: f32) -> Glass {
        Glass { brightness, ..self }
    }

    /// The most that an entry of the [`displacement`](Glass::displacement) table may be with a bezel of
    /// that width: 1.6 × bezel, as one product of floats. At most half a pixel of bezel has no table.
    ///
    /// A table that comes from a wider panel is narrowed as its bezel is:
    ///
    /// ```
    /// use tiglostrema::{Glass, Rect, Rundown};
    ///
    /// let wide: [f32; 33] = std::array::from_fn(|i| 19.2 * (1.0 - i as f32 / 32.0));
    /// let panel = Glass::new(Rect::new(0.0, 0.0, 200.0, 40.0), 8.0);
    /// let mut rundown = Rundown::new();
    /// rundown.add(1, panel.with_bezel(12.0, wide))?;
    ///
    /// let refusal = rundown.add(2, panel.with_bezel(0.9, wide)).unwrap_err();
    /// assert_eq!(
    ///     refusal.to_string(),
    ///     "block 1, priority 2: `displacement[0]` is 19.2, \
    ///      and a bezel of 0.9 allows at most 1.4399999 (cause 15)"
    /// );
    ///
    /// let most = Glass::most_displacement(0.9);
    /// let narrow = wide.map(|entry| (entry * 0.9 / 12.0).min(most));
    /// rundown.add(2, panel.with_bezel(0.9, narrow))?;
    /// # Ok::<(), tiglostrema::Refusal>(())
    /// ```
    #[must_use]
    pub fn most_displacement(bezel: f32) -> f32 {
        bezel * STEEPEST
    }

    /// Sets the bezel's width and its displacement table, whose entries are at most
    /// [`most_displacement`](Glass::most_displacement).
    pub fn with_bezel(self, bezel: f32, displacement: [f32; DISPLACEMENT_LEN]) -> Glass {
        Glass {
            bezel,
            displacement,
            ..self
        }
    }

    /// Sets the highlight's strength.
    pub fn with_spec(self, spec: f32) -> Glass {
        Glass { spec, ..self }
    }

    /// Sets the clip.
    pub fn with_clip(self, clip: IRect) -> Glass {
        Glass { clip, ..self }
    }
}

impl InBlock for Glass {
    const KIND: Kind = Kind::Glass;

    fn write(&self, block: &mut Writer) {
        block.rect(self.rect);
        block.f32(RADIUS, self.radius);
        block.f32(BLUR, self.blur);
        block.color(COLOR, self.tint);
        block.f32(SATURATION, self.saturation);
        block.f32(BRIGHTNESS, self.brightness);
        block.f32(BEZEL, self.bezel);
        block.f32(SPEC, self.spec);
        block.f32s(TABLE, &self.displacement);
    }

    fn read(block: Reader<'_>) -> Option<Glass> {
        Some(Glass {
            rect: block.rect(),
            radius: block.f32(RADIUS),
            blur: block.f32(BLUR),
            tint: block.color(COLOR),
            saturation: block.f32(SATURATION),
            brightness: block.f32(BRIGHTNESS),
            bezel: block.f32(BEZEL),
            spec: block.f32(SPEC),
            displacement: block.f32s(TABLE),
            clip: block.clip(),
        })
    }
}
