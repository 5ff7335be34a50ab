//! How long a canvas of 1920 × 1080 takes to become bytes, in milliseconds: the first call, and
//! the least of many. Each line is measured in a process of its own, since a first call also has to
//! get new memory: `cargo run --release --example rgb_speed`.
use std::env;
use std::error::Error;
use std::hint::black_box;
use std::process::Command;
use std::time::{Duration, Instant};
use tiglostrema::Canvas;

const WIDTH: u32 = 1920;
const HEIGHT: u32 = 1080;
const ROUNDS: usize = 200;

/// What a line does with the canvas, and with bytes that are kept from round to round.
type Work = fn(&Canvas, &mut Vec<u8>);

const LINES: [(&str, Work); 6] = [
    ("byte by byte", |canvas, _| {
        drop(black_box(byte_by_byte(canvas)))
    }),
    ("to_rgb", |canvas, _| drop(black_box(canvas.to_rgb()))),
    ("to_rgba", |canvas, _| drop(black_box(canvas.to_rgba()))),
    ("rgb_into", |canvas, kept| {
        kept.resize(3 * canvas.pixels().len(), 0);
        canvas.rgb_into(kept).expect("as long as it is");
    }),
    ("rgba_into", |canvas, kept| {
        kept.resize(4 * canvas.pixels().len(), 0);
        canvas.rgba_into(kept).expect("as long as it is");
    }),
    ("clone", |canvas, _| drop(black_box(canvas.clone()))),
];

/// Red, green and blue one after the other, as `to_rgb` once was.
fn byte_by_byte(canvas: &Canvas) -> Vec<u8> {
    let channels = |pixel: &u32| [(pixel >> 16) as u8, (pixel >> 8) as u8, *pixel as u8];
    canvas.pixels().iter().flat_map(channels).collect()
}

/// Prints the first time and the least.
fn measure(line: &str) -> Result<(), Box<dyn Error>> {
    let (name, work) = LINES
        .into_iter()
        .find(|(name, _)| *name == line)
        .ok_or("no such line")?;
    let pixels = (0..WIDTH * HEIGHT).map(|i| i.wrapping_mul(0x9E37_79B1));
    let canvas = Canvas::from_pixels(WIDTH, HEIGHT, pixels.collect())?;
    let mut kept = Vec::new();
    let mut round = || {
        let start = Instant::now();
        work(black_box(&canvas), black_box(&mut kept));
        start.elapsed()
    };
    let first = round();
    let least = (0..ROUNDS).map(|_| round()).min().unwrap_or(first);
    let ms = |time: Duration| time.as_secs_f64() * 1e3;
    println!("{name:14} first {:6.2}  least {:6.2}", ms(first), ms(least));
    Ok(())
}

fn main() -> Result<(), Box<dyn Error>> {
    if let Some(line) = env::args().nth(1) {
        return measure(&line);
    }
    for (name, _) in LINES {
        let status = Command::new(env::current_exe()?).arg(name).status()?;
        if !status.success() {
            return Err(format!("{name}: {status}").into());
        }
    }
    Ok(())
}
