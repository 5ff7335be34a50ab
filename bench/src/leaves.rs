//! ns a call of the leaf functions.
use crate::clock::{head, least, line, Goal};
use kash::{color, comp, mathf};
use std::hint::black_box;

/// Inputs of a round: they stay in the nearest cache, and no branch predictor learns them.
const INPUTS: usize = 4096;
const PASSES: usize = 10;

/// The Rust's side, as far away as the archive's functions are.
macro_rules! far {
    ($($name:ident($($arg:ident: $t:ty),*) -> $r:ty = $body:expr;)*) => {
        mod far { use super::*; $(
            #[inline(never)]
            pub extern "C" fn $name($($arg: $t),*) -> $r { $body }
        )* }
    };
}

far! {
    floor(x: f32) -> f32 = mathf::floor(x);
    ceil(x: f32) -> f32 = mathf::ceil(x);
    sqrt(x: f32) -> f32 = mathf::sqrt(x);
    to_i32(x: f32) -> i32 = x as i32;
    to_u32(x: f32) -> u32 = x as u32;
    to_u8(x: f32) -> u8 = x as u8;
    of_i32(n: i32) -> f32 = n as f32;
    saturate(x: f32) -> f32 = mathf::saturate(x);
    mix_pix(a: u32, b: u32, t: u32) -> u32 = color::mix_pix(a, b, t);
    blend(d: u32, r: u32, g: u32, b: u32, a: u32) -> u32 = color::blend(d, r, g, b, a);
    dim_pix(p: u32, dim: u32) -> u32 = comp::dim_pix(p, dim);
}

pub fn table() {
    head("ns a call");
    let mut random = Random(1);
    let coordinates = random.floats(-20_000.0, 20_000.0);
    let positive = random.floats(0.0, 20_000.0);
    for (input, xs) in [("-20000 to 20000", &coordinates), ("0 to 20000", &positive)] {
        let show =
            |name: &str, times: (f64, f64), most: f64| line(name, input, times, Goal::Ratio(most));
        show(
            "floor",
            calls(xs, |x| ours::floor(x), |x| far::floor(x)),
            1.5,
        );
        show("ceil", calls(xs, |x| ours::ceil(x), |x| far::ceil(x)), 1.5);
        show(
            "to_i32",
            calls(xs, |x| ours::to_i32(x), |x| far::to_i32(x)),
            2.0,
        );
        show(
            "to_u32",
            calls(xs, |x| ours::to_u32(x), |x| far::to_u32(x)),
            2.0,
        );
        show(
            "to_u8",
            calls(xs, |x| ours::to_u8(x), |x| far::to_u8(x)),
            2.0,
        );
    }
    let shares = random.floats(0.0, 256.0);
    line(
        "to_u8",
        "0 to 256",
        calls(&shares, |x| ours::to_u8(x), |x| far::to_u8(x)),
        Goal::Ratio(2.0),
    );
    let squares = random.floats(0.0, 1e6);
    line(
        "sqrt",
        "0 to 1e6",
        calls(&squares, |x| ours::sqrt(x), |x| far::sqrt(x)),
        Goal::Time(12.0, "ns"),
    );
    let near_one = random.floats(-1.0, 2.0);
    line(
        "saturate",
        "-1 to 2",
        calls(&near_one, |x| ours::saturate(x), |x| far::saturate(x)),
        Goal::None,
    );
    let whole: Vec<i32> = coordinates.iter().map(|x| *x as i32).collect();
    line(
        "of_i32",
        "-20000 to 20000",
        calls(&whole, |n| ours::of_i32(n), |n| far::of_i32(n)),
        Goal::None,
    );
    pixels(&mut random);
}

fn pixels(random: &mut Random) {
    let words: Vec<[u32; 3]> = (0..INPUTS)
        .map(|_| [random.word(), random.word(), random.word() % 256])
        .collect();
    let show = |name: &str, times: (f64, f64)| line(name, "random pixels", times, Goal::None);
    show(
        "mix_pix",
        calls(
            &words,
            |[a, b, t]| ours::mix_pix(a, b, t),
            |[a, b, t]| far::mix_pix(a, b, t),
        ),
    );
    show(
        "dim_pix",
        calls(
            &words,
            |[p, _, dim]| ours::dim_pix(p, dim),
            |[p, _, dim]| far::dim_pix(p, dim),
        ),
    );
    show(
        "blend",
        calls(
            &words,
            |[d, c, a]| {
                let [r, g, b] = channels(c).map(|v| v as u8);
                ours::blend(d, r, g, b, a)
            },
            |[d, c, a]| {
                let [r, g, b] = channels(c);
                far::blend(d, r, g, b, a)
            },
        ),
    );
}

fn channels(c: u32) -> [u32; 3] {
    [c >> 16 & 255, c >> 8 & 255, c & 255]
}

/// The time of one call of each side over these inputs.
fn calls<X: Copy, A>(inputs: &[X], ours: impl Fn(X) -> A, rust: impl Fn(X) -> A) -> (f64, f64) {
    least(
        INPUTS * PASSES,
        || all(inputs, &ours),
        || all(inputs, &rust),
    )
}

#[inline(never)]
fn all<X: Copy, A>(inputs: &[X], f: impl Fn(X) -> A) {
    for _ in 0..PASSES {
        for x in inputs {
            black_box(f(*x));
        }
    }
}

pub struct Random(pub u64);

impl Random {
    /// xorshift64*
    pub fn word(&mut self) -> u32 {
        self.0 ^= self.0 >> 12;
        self.0 ^= self.0 << 25;
        self.0 ^= self.0 >> 27;
        (self.0.wrapping_mul(0x2545_F491_4F6C_DD1D) >> 32) as u32
    }

    fn floats(&mut self, from: f32, to: f32) -> Vec<f32> {
        (0..INPUTS)
            .map(|_| from + (to - from) * (self.word() as f32 / 4_294_967_296.0))
            .collect()
    }
}
