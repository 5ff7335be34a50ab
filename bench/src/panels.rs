//! ns a pixel for the box passes, the secure frame and glass panels.
use crate::clock::{head, least_of, line, Goal};
use crate::leaves::Random;
use crate::sides::{Sides, HEIGHT, ROUNDS, WIDTH};
use kash::color::Color;
use kash::geom::Rect;
use kash::glass::{self, GlassScratch, GlassStyle, GlassSurface};
use kash::registry::SecurityColorTag;
use ours::panels::{self, Style, Window};
use ours::{surface, Onto};
use std::cell::RefCell;
use std::hint::black_box;

pub fn table() {
    head("ns a pixel");
    passes();
    let mut sides = Sides::new();
    frames(&mut sides);
    for (blur, most) in [(0.0, 0.7), (4.0, 0.4), (16.0, 0.4), (40.0, 0.4)] {
        panel(&mut sides, "flat", [0.0, 0.0], blur, most);
    }
    for (blur, most) in [(0.0, 0.9), (4.0, 0.5), (16.0, 0.5), (40.0, 0.5)] {
        panel(&mut sides, "radius 24, bezel 14", [24.0, 14.0], blur, most);
    }
}

/// Over as many cells of three bytes as the canvas has pixels.
fn passes() {
    let mut random = Random(6);
    let src: Vec<u8> = (0..3 * WIDTH * HEIGHT)
        .map(|_| random.word() as u8)
        .collect();
    let [mut ours, mut rust] = [vec![0; src.len()], vec![0; src.len()]];
    for r in black_box([4, 30]) {
        let mut show = |name: &str, most: f64, mine: Pass<u64>, kash: Pass<()>| {
            let times = least_of(
                ROUNDS,
                WIDTH * HEIGHT,
                || assert_eq!(mine(&src, &mut ours, WIDTH, HEIGHT, r), 0),
                || kash(&src, &mut rust, WIDTH, HEIGHT, r),
            );
            line(name, &format!("r {r}"), times, Goal::Ratio(most));
            assert!(
                ours == rust,
                "{name}, r {r}: the two sides leave different cells"
            );
        };
        show("box_h", 0.35, surface::box_h, glass::box_h);
        show("box_v", 0.25, surface::box_v, glass::box_v);
    }
}

type Pass<A> = fn(&[u8], &mut [u8], usize, usize, usize) -> A;

fn frames(sides: &mut Sides) {
    let (border, width, height) = black_box((4, WIDTH as u32, HEIGHT as u32));
    let window = Window {
        x: 0,
        y: 0,
        width,
        height,
        border,
    };
    let surface = GlassSurface {
        x: 0,
        y: 0,
        width,
        height,
        border_thickness: border,
    };
    for (input, tint, xray) in [
        ("dark", false, false),
        ("tint", true, false),
        ("x-ray", false, true),
    ] {
        let (tint, xray) = black_box((tint, xray));
        sides.line(
            "composite_secure_frame",
            &format!("{input}, whole canvas"),
            0.8,
            |px| panels::frame(px, [WIDTH, HEIGHT], window, 3, [tint, xray]),
            |c| {
                let tag = SecurityColorTag::BlueWork;
                surface.composite_secure_frame(&mut c.px, width, tag, tint, xray)
            },
        );
    }
}

/// A panel over the whole canvas, with a falling table.
fn panel(sides: &mut Sides, name: &str, [radius, bezel]: [f32; 2], blur: f32, most: f64) {
    let table: [f32; 33] = black_box(std::array::from_fn(|i| 16.0 - 0.5 * i as f32));
    let style = black_box(Style {
        radius,
        blur,
        tint: [250, 250, 253, 60],
        saturation: 1.5,
        brightness: 0.05,
        bezel,
        spec: 0.0,
    });
    let [r, g, b, a] = style.tint;
    let theirs = GlassStyle {
        radius,
        blur,
        tint: Color::rgba(r, g, b, a),
        saturation: style.saturation,
        brightness: style.brightness,
        bezel,
        refraction: 1.0,
        spec: style.spec,
        dark: false,
    };
    kash::give_table(table);
    let [w, h] = [WIDTH as f32, HEIGHT as f32];
    let onto = Onto {
        w: WIDTH,
        h: HEIGHT,
        clip: [0, 0, WIDTH as i32, HEIGHT as i32],
    };
    // either side keeps its scratch from call to call
    let room = || RefCell::new(vec![0u8; 3 * WIDTH * HEIGHT]);
    let (first, second) = (room(), room());
    let scratch = RefCell::new(GlassScratch::default());
    sides.line(
        "glass",
        &format!("{name}, blur {blur}, whole canvas"),
        most,
        |px| {
            let (a, b) = (&mut first.borrow_mut(), &mut second.borrow_mut());
            panels::glass(px, onto, [0.0, 0.0, w, h], style, &table, a, b)
        },
        |c| {
            let rect = Rect::new(0.0, 0.0, w, h);
            c.glass(rect, &theirs, &mut scratch.borrow_mut())
        },
    );
}
