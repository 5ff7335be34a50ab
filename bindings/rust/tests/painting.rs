//! What a flag or a number of a layer does to the picture, where the examples of the pages do not
//! show it.
use tiglostrema::{
    play, Canvas, Color, Fill, Frame, Genie, Glass, IRect, Layer, Point, Rect, Rundown, ScaledCopy,
    Scratch, SecurityTag, Shadow, Source, Sources, StraightCopy, Stroke,
};

const ALL: Rect = Rect::new(0.0, 0.0, 40.0, 40.0);

/// The layer over a ground of this colour, 40 by 40; source 0 is one grey pixel.
fn painted(ground: u32, layer: impl Into<Layer>) -> Canvas {
    let mut sources = Sources::new();
    let grey = Source::new(1, 1, &[0x808080]).expect("a source");
    sources.push(grey).expect("room");
    let mut rundown = Rundown::new();
    rundown.add(1, layer).expect("in range");
    let mut canvas = Canvas::new(40, 40).expect("a canvas");
    canvas.fill(Color::hex(ground));
    play(&rundown, &mut canvas, &sources, &mut Scratch::new()).expect("accepted");
    canvas
}

fn middle(ground: u32, layer: impl Into<Layer>) -> u32 {
    painted(ground, layer).pixel(20, 30).expect("on the canvas")
}

#[test]
fn a_clip_keeps_a_layer_to_its_pixels() {
    let clip = IRect::new(3, 5, 7, 6);
    let clipped: [Layer; 7] = [
        Fill::new(ALL, Color::WHITE).with_clip(clip).into(),
        Stroke::new(ALL, 20.0, Color::WHITE).with_clip(clip).into(),
        Shadow::new(ALL, 30.0, Color::WHITE).with_clip(clip).into(),
        Glass::new(ALL, 1.0)
            .with_brightness(0.5)
            .with_clip(clip)
            .into(),
        StraightCopy::new(0, 4, 5).with_clip(clip).into(),
        ScaledCopy::new(0, ALL).with_clip(clip).into(),
        Genie::new(0, ALL, Point::new(5.0, 5.0), 1.0)
            .with_clip(clip)
            .into(),
    ];
    for layer in clipped {
        let canvas = painted(0, layer);
        let pixels = canvas.pixels().iter().enumerate();
        let changed: Vec<_> = pixels
            .filter(|(_, p)| **p != 0)
            .map(|(i, _)| (i % 40, i / 40))
            .collect();
        assert!(!changed.is_empty(), "{layer:?}");
        assert!(
            changed.iter().all(|(x, y)| (3..7).contains(x) && *y == 5),
            "{layer:?}"
        );
    }
}

#[test]
fn a_frame_ignores_its_clip() {
    let mut frame = Frame::new(0, 0, 40, 40, SecurityTag::BlueWork);
    frame.clip = IRect::new(0, 0, 0, 0);
    assert_eq!(painted(0, frame).pixel(39, 39), Some(0xFF1A73E8));
}

#[test]
fn a_frames_veil_is_dark_tinted_or_of_the_borders_colour() {
    let frame = Frame::new(0, 0, 40, 40, SecurityTag::BlueWork);
    let veils = [
        middle(0, frame),
        middle(0, frame.with_tint(true)),
        middle(0, frame.with_xray(true)),
    ];
    assert_eq!(veils[0], 0xFF121418);
    // 96 parts in 256 of 1A73E8.
    assert_eq!(veils[2], 0xFF092B57);
    assert!(veils[1] != veils[0] && veils[1] != veils[2]);
    assert_eq!(middle(0, frame.with_tint(true).with_xray(true)), veils[2]);
    assert_eq!(middle(0, frame.with_border(20)), 0xFF1A73E8);
}

#[test]
fn a_shadow_may_leave_out_its_inside() {
    let shadow = Shadow::new(ALL, 4.0, Color::BLACK);
    assert_eq!(middle(0xFFFFFF, shadow), 0);
    assert_eq!(middle(0xFFFFFF, shadow.with_skip_inside(true)), 0xFFFFFF);
}

#[test]
fn a_panels_numbers() {
    let glass = Glass::new(ALL, 0.0);
    assert_eq!(middle(0x204060, glass), 0x204060);
    assert_eq!(middle(0x204060, glass.with_brightness(0.5)), 0x9FBFDF);
    assert_eq!(
        middle(0x204060, glass.with_tint(Color::rgba(255, 0, 0, 128))),
        0x8F2030
    );
    // The luma of 204060: (77 × 32 + 150 × 64 + 29 × 96) / 256.
    assert_eq!(middle(0x204060, glass.with_saturation(0.0)), 0x3A3A3A);
}

#[test]
fn a_copys_numbers() {
    let at = |copy: StraightCopy| {
        painted(0x000000, copy)
            .pixel(20, 30)
            .expect("on the canvas")
    };
    let copy = StraightCopy::new(0, 20, 30);
    assert!(copy.is_exact());
    assert_eq!(at(copy), 0x808080);
    for changed in [
        copy.with_alpha(128),
        copy.with_dim(128),
        copy.with_radius(0.25),
    ] {
        assert!(!changed.is_exact());
    }
    assert_eq!(at(copy.with_dim(128)), 0x404040);
    assert_eq!(middle(0, ScaledCopy::new(0, ALL).with_alpha(0.5)), 0x404040);
}

#[test]
fn round_corners_leave_the_ground() {
    let round: [Layer; 3] = [
        Fill::new(ALL, Color::WHITE).with_radius(20.0).into(),
        ScaledCopy::new(0, ALL).with_radius(20.0).into(),
        Glass::new(ALL, 1.0)
            .with_brightness(1.0)
            .with_radius(20.0)
            .into(),
    ];
    for layer in round {
        let canvas = painted(0x000011, layer);
        assert_eq!(canvas.pixel(0, 0), Some(0x000011), "{layer:?}");
        assert_ne!(canvas.pixel(20, 20), Some(0x000011), "{layer:?}");
    }
}
