//! Tables that kash-ui works out itself: its clamp is where the product comes from, so each suits its
//! bezel, and neither side may refuse it.
use common::draw::Draw;
use common::layers::draw::{checked, pick, put_float, valid, wide_bezel};
use common::layers::fields::{Form, BEZEL, TABLE};
use common::numbers::unit;
use common::sorts::{Class, Tally};
use kash::glass::displacement_lut;
use ours::surface;
use reading::{judge, Body, BLOCK};

/// A table with what it was made from.
pub struct Made {
    pub bezel: f32,
    pub strength: f32,
    pub entries: [f32; 33],
}

impl Made {
    pub fn draw(draw: &mut Draw) -> Made {
        let bezel = wide_bezel(draw);
        // up to 1 in kash-ui's themes; the clamp holds the first entries from a little above 2 on
        let strength = match draw.below(8) {
            0 => pick(draw, &[0.0, 1.0, 0.35, f32::MAX]),
            1..=3 => unit(draw),
            4..=6 => 8.0 * unit(draw),
            _ => 10_000.0 * unit(draw),
        };
        let mut entries = [0.0; 33];
        displacement_lut(bezel, strength, &mut entries);
        Made {
            bezel,
            strength,
            entries,
        }
    }

    pub fn largest(&self) -> f32 {
        self.entries.iter().copied().fold(0.0, f32::max)
    }

    /// A panel that passes, with this bezel and this table.
    fn body(&self, draw: &mut Draw) -> Body {
        let mut body = valid(draw, Form::of(4));
        put_float(&mut body, BEZEL, self.bezel);
        for (i, entry) in self.entries.iter().enumerate() {
            put_float(&mut body, TABLE + 4 * i, *entry);
        }
        body
    }
}

/// Puts a panel with such a table to the reading, to the proved tests and to the library's add.
pub fn check(draw: &mut Draw, tally: &mut Tally, classes: &[Class<Made>]) {
    let made = Made::draw(draw);
    let body = made.body(draw);
    let block = checked(&body);
    let read = judge(&block);
    let judged = ours::blocks::judge(&block);
    let mut buffer = [0; BLOCK];
    let added = surface::add(&mut buffer, 0, &body);
    tally.count(&made, classes, read.is_ok());
    if read.is_err() || judged != 0 || added != 1 || buffer != block {
        tally.differs(|| {
            format!(
                "bezel {}, strength {}: the reading {read:?}, ours {judged:X}, add {added:X}: {:?}",
                made.bezel, made.strength, made.entries
            )
        });
    }
}
