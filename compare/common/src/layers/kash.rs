//! A layer as kash-ui paints it.
use crate::straight::cleared;
use kash::color::Color;
use kash::geom::{IRect, Pt, Rect};
use kash::gfx::{self, Canvas};
use kash::glass::{GlassScratch, GlassStyle, GlassSurface};
use kash::registry::SecurityColorTag::{self, *};
use reading::{Glass, Kind, Layer, Paint, Rgba};

/// In the order of their numbers.
pub const TAGS: [SecurityColorTag; 7] = [
    ObsidianAdmin,
    PurpleVault,
    MintPersonal,
    BlueWork,
    AmberUsb,
    RedUntrustedNet,
    MagentaDisposable,
];

/// The sources of a show as they are, and the same without top bytes, which straight copies get. Both are there before
/// anything is painted, so that whoever times [`paint`] times kash-ui alone.
#[derive(Default)]
pub struct Sources {
    pub whole: Vec<Canvas>,
    pub clear: Vec<Canvas>,
}

impl Sources {
    pub fn of(whole: Vec<Canvas>) -> Sources {
        let clear = whole.iter().map(cleared).collect();
        Sources { whole, clear }
    }

    /// Those of a table, each with its pixels of the pool.
    pub fn cut(table: &[u32], mut pool: &[u32]) -> Sources {
        let source = |size: &[u32]| {
            let (px, rest) = pool.split_at((size[0] * size[1]) as usize);
            pool = rest;
            canvas_of(size[0], size[1], px)
        };
        Sources::of(table.chunks(2).map(source).collect())
    }
}

/// Paints the layer under its clip; a frame has none.
pub fn paint(canvas: &mut Canvas, layer: &Layer, sources: &Sources, scratch: &mut GlassScratch) {
    let [x0, y0, x1, y1] = layer.clip;
    canvas.push_clip_i(IRect::new(x0, y0, x1, y1));
    paint_clipped(canvas, &layer.kind, sources, scratch);
    canvas.pop_clip();
}

fn paint_clipped(canvas: &mut Canvas, kind: &Kind, sources: &Sources, scratch: &mut GlassScratch) {
    match *kind {
        Kind::Fill {
            rect: at,
            radius,
            paint,
        } => canvas.fill_rrect(rect(at), radius, paint_of(paint)),
        Kind::Stroke {
            rect: at,
            radius,
            width,
            color: c,
        } => canvas.stroke_rrect(rect(at), radius, width, color(c)),
        Kind::Shadow {
            rect: at,
            radius,
            blur,
            color: c,
            skip_inside,
        } => canvas.shadow_rrect(rect(at), radius, blur, color(c), skip_inside),
        Kind::Glass(ref glass) => {
            kash::give_table(glass.table);
            canvas.glass(rect(glass.rect), &style(glass), scratch)
        }
        Kind::Straight {
            source,
            at: [x, y],
            radius,
            alpha,
            dim,
        } => canvas.blit_rounded_dim(&sources.clear[source as usize], x, y, radius, alpha, dim),
        Kind::Scaled {
            source,
            rect: at,
            radius,
            alpha,
        } => canvas.blit_scaled(&sources.whole[source as usize], rect(at), radius, alpha),
        Kind::Genie {
            source,
            rect: at,
            target: [x, y],
            t,
            alpha,
        } => {
            let from = &sources.whole[source as usize];
            canvas.blit_genie(from, rect(at), Pt::new(x, y), t, alpha)
        }
        Kind::Frame {
            at: [x, y],
            size: [width, height],
            border,
            tag,
            tint,
            xray,
        } => {
            let surface = GlassSurface {
                x,
                y,
                width,
                height,
                border_thickness: border,
            };
            let stride = canvas.w as u32;
            surface.composite_secure_frame(&mut canvas.px, stride, TAGS[tag as usize], tint, xray)
        }
    }
}

/// A canvas of these pixels.
pub fn canvas_of(w: u32, h: u32, px: &[u32]) -> Canvas {
    let mut canvas = Canvas::new(w as i32, h as i32);
    canvas.px.copy_from_slice(px);
    canvas
}

fn rect([x, y, w, h]: [f32; 4]) -> Rect {
    Rect::new(x, y, w, h)
}

fn color([r, g, b, a]: Rgba) -> Color {
    Color::rgba(r, g, b, a)
}

fn paint_of(paint: Paint) -> gfx::Paint {
    match paint {
        Paint::Solid(c) => gfx::Paint::Solid(color(c)),
        Paint::VGrad([y0, y1], colors) => {
            let [c0, c1] = colors.map(color);
            gfx::Paint::VGrad { y0, y1, c0, c1 }
        }
        Paint::Linear([x0, y0, x1, y1], colors) => {
            let [c0, c1] = colors.map(color);
            let (p0, p1) = (Pt::new(x0, y0), Pt::new(x1, y1));
            gfx::Paint::Linear { p0, p1, c0, c1 }
        }
        Paint::Radial([x, y, r], colors) => {
            let [c0, c1] = colors.map(color);
            let c = Pt::new(x, y);
            gfx::Paint::Radial { c, r, c0, c1 }
        }
    }
}

fn style(glass: &Glass) -> GlassStyle {
    GlassStyle {
        radius: glass.radius,
        blur: glass.blur,
        tint: color(glass.tint),
        saturation: glass.saturation,
        brightness: glass.brightness,
        bezel: glass.bezel,
        refraction: 1.0,
        spec: glass.spec,
        dark: false,
    }
}
