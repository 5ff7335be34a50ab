//! A small bulletin with all eight kinds of layer, written as a pixmap:
//! `cargo run --release --example picture > picture.ppm`.
use std::error::Error;
use std::io::Write;
use tiglostrema::{
    play, Canvas, Color, Fill, Frame, Genie, Glass, Paint, Point, Rect, Rundown, ScaledCopy,
    Scratch, SecurityTag, Shadow, Source, Sources, StraightCopy, Stroke,
};

const WIDTH: u32 = 640;
const HEIGHT: u32 = 360;

/// A picture whose pixel at (x, y) is the rule's.
fn drawn(width: u32, height: u32, rule: impl Fn(u32, u32) -> u32) -> Vec<u32> {
    let places = (0..width * height).map(|i| (i % width, i / width));
    places.map(|(x, y)| rule(x, y)).collect()
}

fn main() -> Result<(), Box<dyn Error>> {
    let mut sources = Sources::new();
    let studio = drawn(160, 90, |x, y| {
        (20 + y / 2) << 16 | (40 + x / 4) << 8 | (110 + y)
    });
    let studio = sources.push(Source::new(160, 90, &studio)?)?;
    let interpreter = drawn(150, 200, |x, y| {
        let head = x.abs_diff(75).pow(2) + y.abs_diff(60).pow(2) < 900;
        let body = y > 95 && x.abs_diff(75) < 20 + y / 6;
        [0x2B4A6F, 0x222233, 0xE0B090][usize::from(body) + 2 * usize::from(head && !body)]
    });
    let interpreter = sources.push(Source::new(150, 200, &interpreter)?)?;
    let relay = drawn(64, 48, |x, y| {
        if (x / 8 + y / 8) % 2 == 0 {
            0xC04040
        } else {
            0x702020
        }
    });
    let relay = sources.push(Source::new(64, 48, &relay)?)?;

    let mut rundown = Rundown::new();
    let whole = Rect::new(0.0, 0.0, WIDTH as f32, HEIGHT as f32);
    rundown.add(10, ScaledCopy::new(studio, whole))?;
    rundown.add(
        20,
        Frame::new(24, 24, 160, 120, SecurityTag::AmberUsb).with_tint(true),
    )?;
    rundown.add(
        21,
        ScaledCopy::new(relay, Rect::new(32.0, 56.0, 144.0, 80.0)),
    )?;
    let from = Rect::new(230.0, 40.0, 150.0, 180.0);
    let away = Genie::new(interpreter, from, Point::new(300.0, 260.0), 0.4).with_alpha(0.8);
    rundown.add(22, away)?;
    let window = Rect::new(450.0, 40.0, 150.0, 200.0);
    rundown.add(30, Shadow::new(window, 18.0, Color::rgba(0, 0, 0, 160)))?;
    rundown.add(31, StraightCopy::new(interpreter, 450, 40))?;
    rundown.add(32, Stroke::new(window, 3.0, Color::WHITE))?;
    let ticker = Rect::new(20.0, 280.0, 600.0, 60.0);
    let bent = std::array::from_fn(|i| 12.0 * (1.0 - i as f32 / 32.0).powi(3));
    let glass = Glass::new(ticker, 8.0)
        .with_radius(20.0)
        .with_bezel(14.0, bent);
    rundown.add(40, glass.with_tint(Color::rgba(255, 255, 255, 60)))?;
    let line = Paint::Linear {
        p0: Point::new(40.0, 0.0),
        p1: Point::new(600.0, 0.0),
        c0: Color::hex(0x1A73E8),
        c1: Color::hex(0xF538A0),
    };
    rundown.add(
        41,
        Fill::new(Rect::new(40.0, 322.0, 560.0, 4.0), line).with_radius(2.0),
    )?;

    let mut canvas = Canvas::new(WIDTH, HEIGHT)?;
    let layers = play(&rundown, &mut canvas, &sources, &mut Scratch::new())?;
    eprintln!("{layers} layers");
    let mut out = std::io::stdout().lock();
    writeln!(out, "P6 {WIDTH} {HEIGHT} 255")?;
    out.write_all(&canvas.to_rgb())?;
    Ok(())
}
