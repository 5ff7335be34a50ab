//! kash-ui's side of a playing in steps: one layer a call, from the pool of that call.
use super::lending::Lending;
use common::layers::kash::{canvas_of, paint, Sources};
use kash::glass::GlassScratch;
use reading::Layer;
use std::rc::Rc;

#[derive(Default)]
pub struct Rust {
    scratch: GlassScratch,
    cut: Option<Cut>,
    /// The last painted layer that shows a source.
    shown: Option<Shown>,
}

/// The sources of the last layer that shows one.
struct Cut {
    table: Rc<[u32]>,
    pool: Rc<[u32]>,
    sources: Sources,
}

struct Shown {
    layer: Layer,
    lending: Lending,
    before: Vec<u32>,
    after: Vec<u32>,
}

/// What a layer made of the canvas.
pub struct Painted {
    /// Whether it changed a pixel.
    pub visible: bool,
    /// Whether it had painted something else from the pool of the call before.
    pub shows_fresh: bool,
    /// Whether the last layer before it that shows a source had painted something else from the pool of this call.
    pub keeps_old: bool,
}

impl Rust {
    /// Paints the layer; the call before was lent `earlier`.
    pub fn step(
        &mut self,
        layer: &Layer,
        lending: &Lending,
        earlier: Option<&Lending>,
        canvas: &mut Vec<u32>,
    ) -> Painted {
        let after = self.paint(layer, lending, canvas);
        let before = std::mem::replace(canvas, after);
        let painted = Painted {
            visible: before != *canvas,
            shows_fresh: earlier
                .filter(|earlier| layer.source().is_some() && has_fresh(lending, earlier))
                .is_some_and(|earlier| self.paint(layer, earlier, &before) != *canvas),
            keeps_old: self.keeps_old(lending),
        };
        if layer.source().is_some() {
            self.shown = Some(Shown {
                layer: layer.clone(),
                lending: lending.clone(),
                before,
                after: canvas.clone(),
            });
        }
        painted
    }

    fn keeps_old(&mut self, lending: &Lending) -> bool {
        let Some(shown) = self.shown.take() else {
            return false;
        };
        let fresh = has_fresh(lending, &shown.lending);
        let keeps = fresh && self.paint(&shown.layer, lending, &shown.before) != shown.after;
        self.shown = Some(shown);
        keeps
    }

    /// The canvas after the layer, painted from the first playing's pool.
    fn paint(&mut self, layer: &Layer, lending: &Lending, canvas: &[u32]) -> Vec<u32> {
        let Lending { table, pools, .. } = lending;
        let pool = &pools[0];
        let is_cut = |cut: &Cut| Rc::ptr_eq(&cut.table, table) && Rc::ptr_eq(&cut.pool, pool);
        if layer.source().is_some() && !self.cut.as_ref().is_some_and(is_cut) {
            self.cut = Some(Cut {
                table: table.clone(),
                pool: pool.clone(),
                sources: Sources::cut(table, pool),
            });
        }
        let none = Sources::default();
        let sources = self.cut.as_ref().map_or(&none, |cut| &cut.sources);
        let mut onto = canvas_of(lending.width, lending.height, canvas);
        paint(&mut onto, layer, sources, &mut self.scratch);
        onto.px
    }
}

/// Whether nothing but the pool is another, and that of the same length.
fn has_fresh(now: &Lending, earlier: &Lending) -> bool {
    let [new, old] = [now, earlier].map(|lending| &lending.pools[0]);
    now.table == earlier.table
        && [now.width, now.height] == [earlier.width, earlier.height]
        && new.len() == old.len()
        && !Rc::ptr_eq(new, old)
}
