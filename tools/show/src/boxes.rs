//! A layer's box: the pixels outside it never change.
use tiglostrema::{Forecast, IRect, Layer, Rect, Rundown};

/// What a box depends on besides its layer. Without a canvas boxes are cut to the layer's clip alone.
pub struct Sizes<'a> {
    /// The width and the height of the canvas.
    pub canvas: Option<(u32, u32)>,
    /// The sources' widths and heights.
    pub sources: &'a [(u32, u32)],
}

impl Sizes<'_> {
    /// The library's forecast; none without a canvas, and where it refuses the rundown.
    fn forecast(&self, rundown: &Rundown) -> Option<Forecast> {
        let (width, height) = self.canvas?;
        let table: Vec<u32> = self.sources.iter().flat_map(|&(w, h)| [w, h]).collect();
        Forecast::of_bytes(rundown.as_bytes(), width, height, &table).ok()
    }
}

/// The boxes of a rundown's layers, in the order of their blocks; none for a copy whose source's size is not known.
///
/// They are the library's own, [`forecast`], where it would play the rundown on that canvas with these sources. Where
/// it would not, as for a list without a canvas, [`worked_out`] has them.
pub fn of(rundown: &Rundown, sizes: &Sizes<'_>) -> Vec<Option<IRect>> {
    match sizes.forecast(rundown) {
        Some(foretold) => forecast(&foretold).map(Some).collect(),
        None => rundown
            .iter()
            .map(|(_, layer)| worked_out(&layer, sizes))
            .collect(),
    }
}

/// The boxes of a forecast, in the order of the blocks; zeros for an empty one.
pub fn forecast(forecast: &Forecast) -> impl Iterator<Item = IRect> + '_ {
    let empty = IRect::new(0, 0, 0, 0);
    forecast
        .boxes()
        .iter()
        .map(move |area| area.unwrap_or(empty))
}

/// A layer's box by the same rules, worked out here: for a canvas or sources that are not known, and for rundowns that
/// the library refuses. A test holds it to the library's. None where the source's size is not known.
pub fn worked_out(layer: &Layer, sizes: &Sizes<'_>) -> Option<IRect> {
    let canvas = match sizes.canvas {
        Some((w, h)) => IRect::new(0, 0, side(w), side(h)),
        None => IRect::EVERYWHERE,
    };
    let clip = layer.clip().intersect(&canvas);
    Some(match layer {
        Layer::Fill(fill) => outer(fill.rect).intersect(&clip),
        Layer::Stroke(stroke) => outer(stroke.rect).intersect(&clip),
        Layer::Shadow(shadow) => outer(inset(shadow.rect, -shadow.blur)).intersect(&clip),
        Layer::Glass(glass) if glass.rect.w < 2.0 || glass.rect.h < 2.0 => IRect::new(0, 0, 0, 0),
        Layer::Glass(glass) => outer(glass.rect).intersect(&clip),
        Layer::Straight(copy) => {
            let (w, h) = *sizes.sources.get(copy.source.index())?;
            let (right, bottom) = (
                copy.x.saturating_add(side(w)),
                copy.y.saturating_add(side(h)),
            );
            IRect::new(copy.x, copy.y, right, bottom).intersect(&clip)
        }
        Layer::Scaled(copy) => outer(copy.rect).intersect(&clip),
        Layer::Genie(_) => clip,
        Layer::Frame(frame) => {
            let (x, y) = (side(frame.x), side(frame.y));
            let (right, bottom) = (
                x.saturating_add(side(frame.width)),
                y.saturating_add(side(frame.height)),
            );
            IRect::new(x, y, right, bottom).intersect(&canvas)
        }
        _ => return None,
    })
}

/// A length as a column or row; far beyond every canvas it may be any.
fn side(length: u32) -> i32 {
    i32::try_from(length).unwrap_or(i32::MAX)
}

/// The pixels that a rectangle touches.
fn outer(rect: Rect) -> IRect {
    IRect::new(
        rect.x.floor() as i32,
        rect.y.floor() as i32,
        (rect.x + rect.w).ceil() as i32,
        (rect.y + rect.h).ceil() as i32,
    )
}

fn inset(rect: Rect, d: f32) -> Rect {
    Rect::new(rect.x + d, rect.y + d, rect.w - 2.0 * d, rect.h - 2.0 * d)
}

/// A box as words: its left upper corner and its size.
pub fn show(area: Option<IRect>) -> String {
    match area {
        None => "?".to_owned(),
        Some(area) if area.is_empty() => "empty".to_owned(),
        Some(a) => format!("{},{} {}x{}", a.x0, a.y0, a.x1 - a.x0, a.y1 - a.y0),
    }
}

#[cfg(test)]
mod tests {
    use super::*;
    use tiglostrema::{
        Color, Fill, Frame, Genie, Glass, Point, ScaledCopy, SecurityTag, Shadow, StraightCopy,
    };

    const SIZES: Sizes = Sizes {
        canvas: Some((100, 50)),
        sources: &[(30, 20)],
    };

    fn shown(layer: impl Into<Layer>) -> String {
        show(worked_out(&layer.into(), &SIZES))
    }

    #[test]
    fn boxes_of_shapes() {
        let rect = Rect::new(10.5, 5.0, 8.0, 4.0);
        assert_eq!(shown(Fill::new(rect, Color::WHITE)), "10,5 9x4");
        assert_eq!(shown(Shadow::new(rect, 2.0, Color::BLACK)), "8,3 13x8");
        assert_eq!(shown(Glass::new(rect, 9.0)), "10,5 9x4");
        assert_eq!(
            shown(Glass::new(Rect::new(0.0, 0.0, 1.5, 9.0), 9.0)),
            "empty"
        );
        let clip = IRect::new(12, 0, 14, 100);
        assert_eq!(
            shown(Fill::new(rect, Color::WHITE).with_clip(clip)),
            "12,5 2x4"
        );
    }

    #[test]
    fn boxes_of_copies_and_frames() {
        assert_eq!(shown(StraightCopy::new(0, 90, -5)), "90,0 10x15");
        assert_eq!(shown(StraightCopy::new(1, 0, 0)), "?");
        assert_eq!(
            shown(ScaledCopy::new(0, Rect::new(-1.0, 0.0, 4.0, 4.0))),
            "0,0 3x4"
        );
        let clip = IRect::new(5, 5, 9, 9);
        let genie = Genie::new(0, Rect::new(0.0, 0.0, 4.0, 4.0), Point::new(0.0, 0.0), 0.5);
        assert_eq!(shown(genie.with_clip(clip)), "5,5 4x4");
        assert_eq!(
            shown(Frame::new(60, 40, 40, 40, SecurityTag::AmberUsb)),
            "60,40 40x10"
        );
        assert_eq!(
            shown(Frame::new(60, 60, 40, 40, SecurityTag::AmberUsb)),
            "empty"
        );
    }
}
