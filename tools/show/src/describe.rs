//! Layers in words.
use crate::colour;
use std::fmt::Write;
use tiglostrema::{Layer, Paint, SecurityTag};

/// The kind, as a show's text names it.
pub fn kind(layer: &Layer) -> &'static str {
    match layer {
        Layer::Fill(_) => "fill",
        Layer::Stroke(_) => "stroke",
        Layer::Shadow(_) => "shadow",
        Layer::Glass(_) => "glass",
        Layer::Straight(_) => "copy",
        Layer::Scaled(_) => "scaled",
        Layer::Genie(_) => "genie",
        Layer::Frame(_) => "frame",
        _ => "other",
    }
}

/// What the layer does.
pub fn layer(layer: &Layer) -> String {
    match layer {
        Layer::Fill(fill) => join([paint(&fill.paint), radius(fill.radius)]),
        Layer::Stroke(s) => join([
            format!("{} wide in {}", s.width, colour::show(s.color)),
            radius(s.radius),
        ]),
        Layer::Shadow(s) => join([
            format!("blur {} in {}", s.blur, colour::show(s.color)),
            radius(s.radius),
            if s.skip_inside {
                "outside alone".to_owned()
            } else {
                String::new()
            },
        ]),
        Layer::Glass(g) => join([
            format!("frosted, blur {}, tint {}", g.blur, colour::show(g.tint)),
            if g.bezel > 0.5 {
                format!("bent over a bezel of {}", g.bezel)
            } else {
                String::new()
            },
            radius(g.radius),
        ]),
        Layer::Straight(copy) if copy.is_exact() => "exact copy: hides all beneath it".to_owned(),
        Layer::Straight(copy) => join([
            "copy".to_owned(),
            if copy.alpha < 255 {
                format!("alpha {} of 255", copy.alpha)
            } else {
                String::new()
            },
            if copy.dim > 0 {
                format!("dimmed by {}", copy.dim)
            } else {
                String::new()
            },
            radius(copy.radius),
        ]),
        Layer::Scaled(copy) => join([
            "scaled copy".to_owned(),
            alpha(copy.alpha),
            radius(copy.radius),
        ]),
        Layer::Genie(g) => join([
            format!("bent toward {},{} at t {}", g.target.x, g.target.y, g.t),
            alpha(g.alpha),
        ]),
        Layer::Frame(f) => join([
            format!("secure frame, {}", tag(f.tag)),
            if f.xray {
                "x-ray".to_owned()
            } else if f.tint {
                "tinted".to_owned()
            } else {
                String::new()
            },
        ]),
        _ => String::new(),
    }
}

fn paint(paint: &Paint) -> String {
    let from_to = |c0, c1| format!("from {} to {}", colour::show(c0), colour::show(c1));
    match *paint {
        Paint::Solid(c) => colour::show(c),
        Paint::VGrad { c0, c1, .. } => format!("vertical gradient {}", from_to(c0, c1)),
        Paint::Linear { c0, c1, .. } => format!("linear gradient {}", from_to(c0, c1)),
        Paint::Radial { c0, c1, .. } => format!("radial gradient {}", from_to(c0, c1)),
    }
}

fn radius(r: f32) -> String {
    match r > 0.0 {
        true => format!("radius {r}"),
        false => String::new(),
    }
}

fn alpha(a: f32) -> String {
    match a < 1.0 {
        true => format!("alpha {a}"),
        false => String::new(),
    }
}

fn tag(tag: SecurityTag) -> &'static str {
    match tag {
        SecurityTag::ObsidianAdmin => "admin (obsidian)",
        SecurityTag::PurpleVault => "vault (purple)",
        SecurityTag::MintPersonal => "personal (mint)",
        SecurityTag::BlueWork => "work (blue)",
        SecurityTag::AmberUsb => "usb (amber)",
        SecurityTag::RedUntrustedNet => "untrusted (red)",
        SecurityTag::MagentaDisposable => "disposable (magenta)",
    }
}

/// The parts that are not empty, with commas between them.
fn join<const N: usize>(parts: [String; N]) -> String {
    let mut out = String::new();
    for part in parts.iter().filter(|p| !p.is_empty()) {
        let comma = if out.is_empty() { "" } else { ", " };
        // Writing into a String never fails.
        let _ = write!(out, "{comma}{part}");
    }
    out
}

#[cfg(test)]
mod tests {
    use super::*;
    use tiglostrema::{Color, Fill, Rect, StraightCopy};

    #[test]
    fn words() {
        let fill =
            Fill::new(Rect::new(0.0, 0.0, 1.0, 1.0), Color::rgba(1, 2, 3, 4)).with_radius(2.5);
        assert_eq!(layer(&fill.into()), "#01020304, radius 2.5");
        let copy = StraightCopy::new(0, 0, 0);
        assert_eq!(layer(&copy.into()), "exact copy: hides all beneath it");
        assert_eq!(
            layer(&copy.with_alpha(9).with_dim(8).into()),
            "copy, alpha 9 of 255, dimmed by 8"
        );
    }
}
