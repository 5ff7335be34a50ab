//! Blocks drawn at random over the whole ranges, with their ends: reading a block into a typed
//! layer and adding that again gives the same bytes.
mod common;

use common::{block, seal, Draw};
use tiglostrema::Rundown;

/// Fields by their offsets: floats and integers with their ranges, bytes that may be any.
struct Form {
    kind: u8,
    paint: u8,
    flags: u8,
    floats: &'static [(usize, f32, f32)],
    integers: &'static [(usize, i64, i64)],
    free: &'static [(usize, usize)],
}

const FAR: f32 = 16384.0;
const CLIP: [usize; 4] = [236, 240, 244, 248];
const X: (usize, f32, f32) = (32, -FAR, FAR);
const Y: (usize, f32, f32) = (36, -FAR, FAR);
const W: (usize, f32, f32) = (40, 0.0, FAR);
const H: (usize, f32, f32) = (44, 0.0, FAR);
const RADIUS: (usize, f32, f32) = (48, 0.0, 8192.0);
const ALPHA: (usize, f32, f32) = (84, 0.0, 1.0);
const N: [(usize, f32, f32); 4] = [
    (256, -FAR, FAR),
    (260, -FAR, FAR),
    (264, -FAR, FAR),
    (268, -FAR, FAR),
];
const R: (usize, f32, f32) = (264, 0.0, FAR);
const COLOR: (usize, usize) = (56, 60);
const SECOND: (usize, usize) = (252, 256);
const SOURCE: (usize, usize) = (4, 8);

const fn form(kind: u8) -> Form {
    Form {
        kind,
        paint: 0,
        flags: 0,
        floats: &[],
        integers: &[],
        free: &[],
    }
}

const FORMS: [Form; 11] = [
    Form {
        floats: &[X, Y, W, H, RADIUS],
        free: &[COLOR],
        ..form(1)
    },
    Form {
        paint: 1,
        floats: &[X, Y, W, H, RADIUS, N[0], N[1]],
        free: &[COLOR, SECOND],
        ..form(1)
    },
    Form {
        paint: 2,
        floats: &[X, Y, W, H, RADIUS, N[0], N[1], N[2], N[3]],
        free: &[COLOR, SECOND],
        ..form(1)
    },
    Form {
        paint: 3,
        floats: &[X, Y, W, H, RADIUS, N[0], N[1], R],
        free: &[COLOR, SECOND],
        ..form(1)
    },
    Form {
        floats: &[X, Y, W, H, RADIUS, (100, 0.0, 256.0)],
        free: &[COLOR],
        ..form(2)
    },
    Form {
        flags: 1,
        floats: &[X, Y, W, H, RADIUS, (52, 0.0, 256.0)],
        free: &[COLOR],
        ..form(3)
    },
    // Up to half a pixel of bezel the table's bytes are free, those of a NaN too.
    Form {
        floats: &[
            X,
            Y,
            W,
            H,
            RADIUS,
            (52, 0.0, 64.0),
            (60, 0.0, 8.0),
            (64, -1.0, 1.0),
            (68, 0.0, 0.5),
            (72, 0.0, 1.0),
        ],
        free: &[COLOR, (104, 236)],
        ..form(4)
    },
    Form {
        floats: &[RADIUS],
        integers: &[
            (8, -16384, 16384),
            (12, -16384, 16384),
            (76, 0, 255),
            (80, 0, 255),
        ],
        free: &[SOURCE],
        ..form(5)
    },
    Form {
        floats: &[X, Y, W, H, RADIUS, ALPHA],
        free: &[SOURCE],
        ..form(6)
    },
    Form {
        floats: &[
            X,
            Y,
            W,
            H,
            ALPHA,
            (88, 0.0, 1.0),
            (92, -FAR, FAR),
            (96, -FAR, FAR),
        ],
        free: &[SOURCE],
        ..form(7)
    },
    Form {
        flags: 3,
        integers: &[
            (8, 0, 16384),
            (12, 0, 16384),
            (16, 0, 4096),
            (20, 0, 4096),
            (24, 0, 4096),
        ],
        ..form(8)
    },
];

impl Draw {
    fn float(&mut self, lo: f32, hi: f32) -> f32 {
        match self.below(6) {
            0 => lo,
            1 => hi,
            2 => -0.0,
            3 => f32::from_bits(1),
            _ => lo + (hi - lo) * (self.below(1 << 24) as f32 / (1 << 24) as f32),
        }
    }

    fn integer(&mut self, lo: i64, hi: i64) -> i32 {
        let value = match self.below(4) {
            0 => lo,
            1 => hi,
            _ => lo + self.below((hi - lo + 1) as u64) as i64,
        };
        value as i32
    }

    fn block(&mut self, form: &Form) -> Vec<u8> {
        let mut block = vec![0; 512];
        block[0] = form.kind;
        block[1] = self.next() as u8 & form.flags;
        block[29] = form.paint;
        if form.kind == 8 {
            block[28] = self.below(7) as u8;
        }
        let priority = (2, 4);
        for (from, to) in form.free.iter().chain([&priority]) {
            block[*from..*to].fill_with(|| self.next() as u8);
        }
        for (at, lo, hi) in form.floats {
            block[*at..at + 4].copy_from_slice(&self.float(*lo, *hi).to_le_bytes());
        }
        let clip = CLIP.map(|at| (at, -16384, 16384));
        for (at, lo, hi) in form.integers.iter().chain(&clip) {
            block[*at..at + 4].copy_from_slice(&self.integer(*lo, *hi).to_le_bytes());
        }
        seal(block)
    }
}

#[test]
fn a_block_read_and_added_again_is_the_same() {
    let mut draw = Draw(0x5EED);
    for round in 0..500 {
        for form in &FORMS {
            let bytes = draw.block(form);
            let rundown = Rundown::from_bytes(&bytes);
            let rundown =
                rundown.unwrap_or_else(|e| panic!("round {round}, kind {}: {e}", form.kind));
            let (priority, layer) = rundown.iter().next().expect("one layer");
            assert_eq!(block(priority, layer), bytes, "{layer:?}");
        }
    }
}
