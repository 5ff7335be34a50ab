//! Layers for a canvas and its sources, drawn by the comparisons of their painters.
use common::draw::Draw;
use common::layers::draw::{bend_most, pick, valid, wide_bezel};
use common::layers::fields::{Form, FORMS};
use common::numbers::{clip, unit, Canvas, Pixels};
use common::painters::Case as _;
use copies::case::{From, Painter};
use copies::cases::copy;
use panels::frame::Frame;
use panels::glass::Glass;
use reading::{Kind, Layer, Paint, Rgba};
use shapes::case::Case as Shape;

/// What layers are drawn for.
pub struct Stage<'a> {
    pub width: usize,
    pub height: usize,
    /// The sources' widths and heights.
    pub sizes: &'a [[u32; 2]],
}

/// How often each kind is drawn, from kind 1 on: glass over copies is where most may go wrong.
const SHARES: [u64; 8] = [2, 1, 1, 4, 4, 2, 2, 1];

impl Stage<'_> {
    /// Any kind for which there are sources.
    pub fn number(&self, draw: &mut Draw) -> usize {
        loop {
            let mut at = draw.below(SHARES.iter().sum());
            let kind = SHARES.iter().position(|share| {
                let here = at < *share;
                at = at.wrapping_sub(*share);
                here
            });
            let number = 1 + kind.expect("below the sum of the shares");
            if self.has(number) {
                return number;
            }
        }
    }

    /// Whether a layer of the kind can be drawn.
    pub fn has(&self, number: usize) -> bool {
        !(5..=7).contains(&number) || !self.sizes.is_empty()
    }

    /// A layer of this kind that passes its tests.
    pub fn layer(&self, draw: &mut Draw, number: usize, priority: u16) -> Layer {
        if draw.below(24) == 0 {
            return self.at_the_ends(draw, number, priority);
        }
        let (clip, kind) = match number {
            1..=3 => self.shape(draw, number),
            4 => self.glass(draw),
            5..=7 => self.copy(draw, number),
            _ => self.frame(draw),
        };
        Layer {
            priority,
            clip,
            kind,
        }
    }

    /// Any source's number.
    fn source(&self, draw: &mut Draw) -> u32 {
        draw.below(self.sizes.len() as u64) as u32
    }

    fn given(&self) -> Canvas {
        Canvas::Given(self.width, self.height)
    }

    fn shape(&self, draw: &mut Draw, number: usize) -> ([i32; 4], Kind) {
        let drawn = Shape::draw(draw, number - 1, self.given());
        let (rect, radius) = (drawn.at.rect, drawn.at.r);
        let colors = drawn.paint.colors.map(rgba);
        let [n0, n1, n2, n3] = drawn.paint.numbers;
        let kind = match number {
            1 => Kind::Fill {
                rect,
                radius,
                paint: match drawn.paint.kind {
                    1 => Paint::VGrad([n0, n1], colors),
                    2 => Paint::Linear([n0, n1, n2, n3], colors),
                    3 => Paint::Radial([n0, n1, n2], colors),
                    _ => Paint::Solid(colors[0]),
                },
            },
            2 => Kind::Stroke {
                rect,
                radius,
                width: drawn.size,
                color: colors[0],
            },
            _ => Kind::Shadow {
                rect,
                radius,
                blur: drawn.size,
                color: colors[0],
                skip_inside: drawn.skip_inside != 0,
            },
        };
        (drawn.at.clip, kind)
    }

    fn glass(&self, draw: &mut Draw) -> ([i32; 4], Kind) {
        let (onto, drawn) = Glass::draw(draw, self.given());
        let style = drawn.style;
        let mut rect = drawn.rect;
        let mut blur = style.blur;
        if draw.below(3) == 0 {
            // small panels, so that some windows miss what others show
            let side = |draw: &mut Draw| 2.0 + draw.below(5) as f32;
            (rect[2], rect[3], blur) = (side(draw), side(draw), draw.below(3) as f32 * 0.5);
        }
        let glass = reading::Glass {
            rect,
            radius: style.radius,
            blur,
            tint: style.tint,
            saturation: style.saturation,
            brightness: style.brightness,
            bezel: style.bezel,
            spec: style.spec,
            table: suited(draw, drawn.table.entries(), style.bezel),
        };
        (onto.clip, Kind::Glass(Box::new(glass)))
    }

    fn copy(&self, draw: &mut Draw, number: usize) -> ([i32; 4], Kind) {
        let painter = [Painter::Straight, Painter::Scaled, Painter::Genie][number - 5];
        let source = self.source(draw);
        let size = self.sizes.get(source as usize).copied();
        let [w, h] = size.unwrap_or([1, 1]).map(|n| n as usize);
        let from = From {
            w,
            h,
            len: w * h,
            px: Pixels { first: 0, step: 0 },
        };
        let drawn = copy(draw, painter, (self.width, self.height), from);
        let exact = draw.below(3) == 0;
        let (rect, alpha) = (drawn.rect, drawn.part);
        let kind = match painter {
            Painter::Straight if exact => Kind::Straight {
                source,
                at: drawn.place(),
                radius: pick(draw, &[0.0, -0.0]),
                alpha: 255,
                dim: 0,
            },
            Painter::Straight => Kind::Straight {
                source,
                at: drawn.place(),
                radius: drawn.r,
                alpha: drawn.alpha.min(255),
                dim: drawn.dim.min(255),
            },
            Painter::Scaled => Kind::Scaled {
                source,
                rect,
                radius: drawn.r,
                alpha,
            },
            Painter::Genie => Kind::Genie {
                source,
                rect,
                target: drawn.target,
                t: drawn.t,
                alpha,
            },
        };
        (drawn.onto.clip, kind)
    }

    fn frame(&self, draw: &mut Draw) -> ([i32; 4], Kind) {
        let (_, drawn) = Frame::draw(draw, self.given());
        let at = drawn.window;
        let kind = Kind::Frame {
            at: [at.x, at.y],
            size: [at.width, at.height],
            border: at.border,
            tag: drawn.tag,
            tint: drawn.tint,
            xray: drawn.xray,
        };
        // of no effect
        (clip(draw, self.width as i32, self.height as i32), kind)
    }

    /// A layer whose numbers lie at the ends of their ranges, mostly far from the canvas.
    fn at_the_ends(&self, draw: &mut Draw, number: usize, priority: u16) -> Layer {
        let forms: Vec<&Form> = FORMS.iter().filter(|f| f.kind == number as u8).collect();
        let form = pick(draw, &forms);
        let body = valid(draw, form);
        let mut layer = Layer::of(&body);
        layer.priority = priority;
        if draw.below(2) == 0 {
            layer.clip = clip(draw, self.width as i32, self.height as i32);
        }
        match &mut layer.kind {
            Kind::Straight { source, .. }
            | Kind::Scaled { source, .. }
            | Kind::Genie { source, .. } => *source = self.source(draw),
            Kind::Frame { at, size, .. } => {
                at[0] = at[0].min(self.width as u32);
                size[0] = size[0].min(self.width as u32 - at[0]);
            }
            _ => {}
        }
        layer
    }
}

/// A table that its painter takes, held to the bezel where it is read: cut at the greatest entry that
/// this allows, or made smaller as a whole.
fn suited(draw: &mut Draw, table: [f32; 33], bezel: f32) -> [f32; 33] {
    let most = bend_most(bezel);
    let largest = table.iter().copied().fold(0.0, f32::max);
    if bezel <= 0.5 || largest <= most {
        return table;
    }
    let share = pick(draw, &[1.0, most / largest]);
    table.map(|entry| (entry * share).min(most))
}

/// Gives a glass a bezel whose table is read.
pub fn widen(draw: &mut Draw, glass: &mut reading::Glass) {
    if glass.bezel > 0.5 {
        return;
    }
    glass.bezel = wide_bezel(draw);
    let most = bend_most(glass.bezel);
    glass.table = std::array::from_fn(|_| most * unit(draw));
    glass.table[32] = 0.0;
}

fn rgba(word: u32) -> Rgba {
    let [a, r, g, b] = word.to_be_bytes();
    [r, g, b, a]
}
