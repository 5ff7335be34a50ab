//! The sorts of rundowns that every run has to meet.
use crate::check::{Outcome, Seen};
use crate::forecast::Planned;
use crate::top_bytes::TopBytes;
use common::layers::draw::bend_most;
use common::sorts::Class;
use common::straight::Straight;
use reading::{dearest_need, Area, Cause, Effect, Forecast, Glass, Kind, Paint, BLOCK, MOST};

pub const CLASSES: &[Class<Outcome>] = &[
    ("accepted: no layer", |o| o.answer == Ok(0)),
    ("accepted: one layer", |o| o.answer == Ok(1)),
    ("accepted: 12 layers", |o| o.answer == Ok(12)),
    ("accepted: 256 layers", |o| o.answer == Ok(MOST)),
    ("accepted: all eight kinds", |o| {
        o.answer.is_ok() && (1..=8).all(|n| o.layers.iter().any(|s| s.layer.number() == n))
    }),
    ("accepted: canvas of one pixel", |o| {
        o.answer.is_ok() && o.case.canvas.len() == 1
    }),
    ("accepted: no source", |o| {
        o.answer.is_ok() && o.case.table.is_empty()
    }),
    ("accepted: 16 sources", |o| {
        o.answer.is_ok() && o.case.table.len() == 32
    }),
    ("accepted: just the scratch that is needed", |o| {
        o.answer.is_ok() && needs(o).max() == Some(o.case.scratch[0].min(o.case.scratch[1]))
    }),
    ("accepted: order of the buffer is another", |o| {
        o.answer.is_ok() && !priorities(o).is_sorted()
    }),
    (
        "accepted: order of the priorities as text is another",
        |o| {
            let ordered: Vec<String> = o
                .layers
                .iter()
                .map(|s| s.layer.priority.to_string())
                .collect();
            o.answer.is_ok() && !ordered.is_sorted()
        },
    ),
    (
        "accepted: order of the priorities' low bytes is another",
        |o| o.answer.is_ok() && !o.layers.is_sorted_by_key(|s| s.layer.priority as u8),
    ),
    (
        "accepted: order of the priorities as signed is another",
        |o| o.answer.is_ok() && !o.layers.is_sorted_by_key(|s| s.layer.priority as i16),
    ),
    (
        "accepted: a table with an entry equal to the product",
        |o| glazed(o, |g| is_read(g) && has(g, bend_most(g.bezel))),
    ),
    ("accepted: the same, bezel just above 0.5", |o| {
        let least = 0.5f32.next_up();
        glazed(o, |g| g.bezel == least && has(g, bend_most(least)))
    }),
    ("accepted: the same, bezel 256", |o| {
        glazed(o, |g| g.bezel == 256.0 && has(g, bend_most(256.0)))
    }),
    ("accepted: a table below the product", |o| {
        let below = |g: &Glass, v: f32| 0.0 < v && v < bend_most(g.bezel);
        glazed(o, |g| is_read(g) && below(g, largest(g)))
    }),
    (
        "accepted: bezel at most 0.5, an entry above the product",
        |o| glazed(o, |g| !is_read(g) && largest(g) > bend_most(g.bezel)),
    ),
    ("accepted: bezel 0.5, a NaN in the table", |o| {
        glazed(o, |g| g.bezel == 0.5 && g.table.iter().any(|v| v.is_nan()))
    }),
    ("map: made, though the scratch is too short", |o| {
        answered(o, 11) && o.mapped.is_ok()
    }),
    ("map: made, though the pool's length is wrong", |o| {
        answered(o, 2) && o.mapped.is_ok()
    }),
    ("map: refused", |o| o.mapped.is_err()),
    ("map: refused, 15", |o| {
        o.mapped.is_err_and(|(cause, _)| cause == Cause::Bend)
    }),
    ("forecast: no layer", |o| of(o, |f| f.layers == 0)),
    ("forecast: 256 layers", |o| of(o, |f| f.layers == MOST)),
    ("forecast: scratch is needed", |o| of(o, |f| f.scratch > 0)),
    ("forecast: layers, and no scratch is needed", |o| {
        of(o, |f| f.scratch == 0 && f.layers > 0)
    }),
    ("forecast: panels, and no scratch is needed", |o| {
        of(o, |f| f.scratch == 0) && o.planned.iter().any(|p| p.window.is_some())
    }),
    ("forecast: cells of several panels", |o| {
        o.planned.iter().filter(|p| p.need > 0).count() > 1
    }),
    ("forecast: the last panel needs less than another", |o| {
        let last = o.planned.iter().rfind(|p| p.need > 0);
        last.is_some_and(|last| of(o, |f| last.need < f.scratch))
    }),
    ("forecast: a panel's window is larger than its box", |o| {
        panel(o, |p, window, _| p.need > 0 && window != p.area)
    }),
    ("forecast: a window of ragged cells, k = 2", |o| {
        ragged(o, 2)
    }),
    ("forecast: a window of ragged cells, k = 4", |o| {
        ragged(o, 4)
    }),
    (
        "forecast: an empty box whose window is not, a side below 2",
        |o| panel(o, |p, window, _| is_thin(p) && !window.is_empty()),
    ),
    (
        "forecast: an empty box whose window is not, by its place or clip",
        |o| {
            panel(o, |p, window, _| {
                !is_thin(p) && p.area.is_empty() && !window.is_empty()
            })
        },
    ),
    ("forecast: an empty box, then one that is not", |o| {
        let mut pairs = o.planned.windows(2);
        pairs.any(|p| p[0].area.is_empty() && !p[1].area.is_empty())
    }),
    (
        "forecast: boxes in another order than they are painted in",
        |o| {
            let mut pairs = o.planned.windows(2);
            let turned = |p: &[Planned]| p[0].layer.priority > p[1].layer.priority;
            pairs.any(|p| turned(p) && !p[0].area.is_empty() && p[0].area != p[1].area)
        },
    ),
    ("forecast: a fill of no width has a box", |o| {
        let thin = |p: &Planned| matches!(p.layer.kind, Kind::Fill { rect, .. } if rect[2] == 0.0);
        o.planned.iter().any(|p| thin(p) && !p.area.is_empty())
    }),
    ("forecast: a genie's box where nothing is painted", |o| {
        let genie = |s: &&Seen| s.layer.number() == 7;
        o.layers
            .iter()
            .filter(genie)
            .any(|s| !s.area.is_empty() && !s.painted)
    }),
    ("forecast: a frame's box outside its clip", |o| {
        let frame = |p: &&Planned| p.layer.number() == 8 && !p.area.is_empty();
        let clip = |p: &Planned| Area::new(p.layer.clip);
        o.planned
            .iter()
            .filter(frame)
            .any(|p| p.area.cut(clip(p)).is_empty())
    }),
    ("forecast: 2^32 cells", |o| of(o, |f| f.cells == 1 << 32)),
    ("forecast: no pixels, 4096 by 4096", |o| {
        let sides = [o.case.width, o.case.height];
        of(o, |f| f.layers > 0) && o.case.canvas.is_empty() && sides == [4096; 2]
    }),
    ("forecast: counted, the canvas's length is wrong", |o| {
        answered(o, 1) && o.counted.is_ok()
    }),
    ("forecast: counted, the pool's length is wrong", |o| {
        answered(o, 2) && o.counted.is_ok()
    }),
    ("forecast: counted, the scratch is too short", |o| {
        answered(o, 11) && o.counted.is_ok()
    }),
    ("forecast: played with just its scratch, none", |o| {
        o.answer.is_ok() && of(o, |f| f.scratch == 0)
    }),
    (
        "forecast: played with just its scratch, and a byte less",
        |o| o.answer.is_ok() && of(o, |f| f.scratch > 0),
    ),
    (
        "forecast: a byte less is enough for a panel before the dearest",
        |o| {
            let first = o.planned.iter().find(|p| p.need > 0);
            let less = first.is_some_and(|first| of(o, |f| first.need < f.scratch));
            less && (o.answer.is_ok() || answered(o, 11))
        },
    ),
    ("forecast refused: 1, a width of 0", |o| wide(o, 0)),
    ("forecast refused: 1, a width of 4097", |o| wide(o, 4097)),
    ("forecast refused: 1, a width of 65536", |o| {
        wide(o, 1 << 16)
    }),
    ("forecast refused: 1, a width of 2^32 - 1", |o| {
        wide(o, u32::MAX)
    }),
    ("forecast refused: 1, a height of 0", |o| high(o, 0)),
    ("forecast refused: 1, a height of 4097", |o| high(o, 4097)),
    ("forecast refused: 1, a height of 65536", |o| {
        high(o, 1 << 16)
    }),
    ("forecast refused: 1, a height of 2^32 - 1", |o| {
        high(o, u32::MAX)
    }),
    ("forecast refused: 1, the product wraps", |o| {
        forbids(o, 1) && [o.case.width, o.case.height] == [1 << 16; 2]
    }),
    ("forecast refused: 2", |o| forbids(o, 2)),
    ("forecast refused: 2, an odd table", |o| {
        forbids(o, 2) && o.case.table.len() % 2 == 1
    }),
    ("forecast refused: 2, 17 sources", |o| {
        forbids(o, 2) && o.case.table.len() == 34
    }),
    ("forecast refused: 3", |o| forbids(o, 3)),
    ("forecast refused: 4", |o| forbids(o, 4)),
    ("forecast refused: 5", |o| forbids(o, 5)),
    ("forecast refused: 6", |o| forbids(o, 6)),
    ("forecast refused: 7", |o| forbids(o, 7)),
    ("forecast refused: 8", |o| forbids(o, 8)),
    ("forecast refused: 9", |o| forbids(o, 9)),
    ("forecast refused: 10", |o| forbids(o, 10)),
    ("forecast refused: 15", |o| forbids(o, 15)),
    (
        "forecast refused: 2 to 10 or 15, the canvas's length is wrong",
        |o| answered(o, 1) && (2..=10).chain([15]).any(|n| forbids(o, n)),
    ),
    (
        "forecast refused: 3 to 10 or 15, the pool's length is wrong",
        |o| answered(o, 2) && (3..=10).chain([15]).any(|n| forbids(o, n)),
    ),
    ("forecast refused: 15, the pool's length is wrong", |o| {
        answered(o, 2) && forbids(o, 15)
    }),
    ("paints: 1, solid", |o| {
        paint(o, |p| matches!(p, Paint::Solid(_)))
    }),
    ("paints: 1, VGrad", |o| {
        paint(o, |p| matches!(p, Paint::VGrad(..)))
    }),
    ("paints: 1, Linear", |o| {
        paint(o, |p| matches!(p, Paint::Linear(..)))
    }),
    ("paints: 1, Radial", |o| {
        paint(o, |p| matches!(p, Paint::Radial(..)))
    }),
    ("paints: 2", |o| paints(o, 2)),
    ("paints: 3", |o| paints(o, 3)),
    ("paints: 4", |o| paints(o, 4)),
    ("paints: 5", |o| paints(o, 5)),
    ("paints: 6", |o| paints(o, 6)),
    ("paints: 7", |o| paints(o, 7)),
    ("paints: 8", |o| paints(o, 8)),
    ("paints: glass with an entry equal to the product", |o| {
        o.layers.iter().any(|s| {
            let most = |g: &Glass| is_read(g) && has(g, bend_most(g.bezel));
            matches!(&s.layer.kind, Kind::Glass(g) if most(g)) && s.painted
        })
    }),
    ("paints: a frame outside its clip", |o| {
        let outside = |s: &Seen| s.layer.clip[2] <= s.layer.clip[0] && s.painted;
        o.layers.iter().any(|s| s.layer.number() == 8 && outside(s))
    }),
    ("paints: glass over a copy", |o| {
        let mut copied = false;
        o.layers.iter().any(|s| {
            copied |= s.layer.source().is_some() && s.painted;
            copied && s.layer.number() == 4 && s.painted
        })
    }),
    ("empty box: a kind other than 7", |o| {
        o.layers
            .iter()
            .any(|s| s.layer.number() != 7 && s.area.is_empty())
    }),
    ("empty box: a glass that a side below 2 leaves out", |o| {
        o.layers
            .iter()
            .any(|s| matches!(&s.layer.kind, Kind::Glass(g) if g.rect[2] < 2.0))
    }),
    ("refused: 1", |o| refused(o, Cause::Canvas)),
    ("refused: 1, the product wraps", |o| {
        refused(o, Cause::Canvas) && o.case.width == 1 << 16 && o.case.canvas.is_empty()
    }),
    ("refused: 1, one pixel too few or too many", |o| {
        let pixels = o.case.width as usize * o.case.height as usize;
        refused(o, Cause::Canvas) && pixels.abs_diff(o.case.canvas.len()) == 1
    }),
    ("refused: 1, a side of 4097", |o| {
        refused(o, Cause::Canvas)
            && o.case.width.max(o.case.height) == 4097
            && o.case.canvas.len() == 4097
    }),
    ("refused: 2", |o| refused(o, Cause::Sources)),
    ("refused: 2, an odd table", |o| {
        refused(o, Cause::Sources) && o.case.table.len() % 2 == 1
    }),
    ("refused: 2, 17 sources", |o| {
        refused(o, Cause::Sources) && o.case.table.len() == 34
    }),
    ("refused: 2, a side of 0", |o| {
        refused(o, Cause::Sources) && o.case.table.contains(&0)
    }),
    ("refused: 2, a side of 4097", |o| {
        refused(o, Cause::Sources) && o.case.table.contains(&4097)
    }),
    ("refused: 2, the product wraps", |o| {
        refused(o, Cause::Sources) && o.case.table.contains(&(1 << 16))
    }),
    ("refused: 2, the pool's length", |o| {
        refused(o, Cause::Sources) && o.case.has_table()
    }),
    ("refused: 3", |o| refused(o, Cause::Rundown)),
    ("refused: 3, 257 blocks", |o| {
        refused(o, Cause::Rundown) && o.case.rundown.len() == (MOST + 1) * BLOCK
    }),
    ("refused: 3, a byte more or less", |o| {
        let rest = o.case.rundown.len() % BLOCK;
        refused(o, Cause::Rundown) && (rest == 1 || rest == BLOCK - 1)
    }),
    ("refused: 4", |o| refused(o, Cause::Check)),
    ("refused: 5", |o| refused(o, Cause::Form)),
    ("refused: 6", |o| refused(o, Cause::Float)),
    ("refused: 7", |o| refused(o, Cause::Integer)),
    ("refused: 8", |o| refused(o, Cause::Priority)),
    ("refused: 8, two later blocks", |o| {
        refused(o, Cause::Priority) && {
            let all = priorities(o);
            let again = |i: &usize| all[..*i].contains(&all[*i]);
            (0..all.len()).filter(again).count() > 1
        }
    }),
    ("refused: 9", |o| refused(o, Cause::Source)),
    ("refused: 9, an empty table", |o| {
        refused(o, Cause::Source) && o.case.table.is_empty()
    }),
    ("refused: 10", |o| refused(o, Cause::Frame)),
    ("refused: 11", |o| refused(o, Cause::Scratch)),
    ("refused: 11, a byte short, the first slice alone", |o| {
        byte_short(o) == Some([true, false])
    }),
    ("refused: 11, a byte short, the second slice alone", |o| {
        byte_short(o) == Some([false, true])
    }),
    ("refused: 11, a byte short, both slices", |o| {
        byte_short(o) == Some([true, true])
    }),
    (
        "refused: 11, a later block with a lower priority needs more too",
        |o| {
            let Err((Cause::Scratch, at)) = o.answer else {
                return false;
            };
            let layers: Vec<_> = o.case.show().layers().collect();
            let least = o.case.scratch[0].min(o.case.scratch[1]);
            layers[at + 1..]
                .iter()
                .any(|l| l.priority < layers[at].priority && o.case.show().need(l) > least)
        },
    ),
    ("refused: 15", |o| refused(o, Cause::Bend)),
    ("refused: 15, entry 0 one float above the product", |o| {
        torn(o, |g, _| g.table[0] == just_above(g))
    }),
    ("refused: 15, entry 31 one float above the product", |o| {
        torn(o, |g, _| g.table[31] == just_above(g))
    }),
    ("refused: 15, an entry between one float above", |o| {
        torn(o, |g, _| g.table[1..31].contains(&just_above(g)))
    }),
    ("refused: 15, bezel just above 0.5", |o| {
        torn(o, |g, _| g.bezel == 0.5f32.next_up())
    }),
    ("refused: 15, bezel 256", |o| {
        torn(o, |g, _| g.bezel == 256.0)
    }),
    ("refused: 15, an empty box, a side below 2", |o| {
        torn(o, |g, _| g.rect[2] < 2.0 || g.rect[3] < 2.0)
    }),
    ("refused: 15, an empty box, by its place or clip", |o| {
        torn(o, |g, area| {
            g.rect[2].min(g.rect[3]) >= 2.0 && area.is_empty()
        })
    }),
    ("refused: 15, and a box that is not empty", |o| {
        torn(o, |_, area| !area.is_empty())
    }),
    ("two faults: 1 and 2", |o| two(o, 1, 2)),
    ("two faults: 1 and 3", |o| two(o, 1, 3)),
    ("two faults: 1 and 4 to 11", |o| {
        (4..=11).any(|n| two(o, 1, n))
    }),
    ("two faults: 1 and 15", |o| two(o, 1, 15)),
    ("two faults: 2 and 3", |o| two(o, 2, 3)),
    ("two faults: 2 and 9", |o| two(o, 2, 9)),
    ("two faults: 2 and 4 to 11", |o| {
        (4..=11).any(|n| two(o, 2, n))
    }),
    ("two faults: 2 and 15", |o| two(o, 2, 15)),
    ("two faults: 3 and 4 to 11", |o| {
        (4..=11).any(|n| two(o, 3, n))
    }),
    ("two faults: 3 and 15", |o| two(o, 3, 15)),
    ("two faults, one block: 4 and 5", |o| one(o, 4, 5)),
    ("two faults, one block: 4 and 6", |o| one(o, 4, 6)),
    ("two faults, one block: 4 and 7", |o| one(o, 4, 7)),
    ("two faults, one block: 4 and 9", |o| one(o, 4, 9)),
    ("two faults, one block: 4 and 10", |o| one(o, 4, 10)),
    ("two faults, one block: 5 and 6", |o| one(o, 5, 6)),
    ("two faults, one block: 5 and 7", |o| one(o, 5, 7)),
    ("two faults, one block: 5 and 9", |o| one(o, 5, 9)),
    ("two faults, one block: 5 and 10", |o| one(o, 5, 10)),
    ("two faults, one block: 6 and 7", |o| one(o, 6, 7)),
    ("two faults, one block: 6 and 9", |o| one(o, 6, 9)),
    ("two faults, one block: 7 and 9", |o| one(o, 7, 9)),
    ("two faults, one block: 7 and 10", |o| one(o, 7, 10)),
    ("two faults, one block: 4 and 15", |o| one(o, 4, 15)),
    ("two faults, one block: 5 and 15", |o| one(o, 5, 15)),
    ("two faults, one block: 6 and 15", |o| one(o, 6, 15)),
    ("two faults, one block: 7 and 15", |o| one(o, 7, 15)),
    ("two faults, one block: 15 and 8", |o| one(o, 15, 8)),
    ("two faults, one block: 15 and 11", |o| one(o, 15, 11)),
    ("two faults: 5, then 4 in a later block", |o| later(o, 5, 4)),
    ("two faults: 6, then 4 in a later block", |o| later(o, 6, 4)),
    ("two faults: 6, then 5 in a later block", |o| later(o, 6, 5)),
    ("two faults: 7, then 4 in a later block", |o| later(o, 7, 4)),
    ("two faults: 7, then 5 in a later block", |o| later(o, 7, 5)),
    ("two faults: 7, then 6 in a later block", |o| later(o, 7, 6)),
    ("two faults: 9, then 4 in a later block", |o| later(o, 9, 4)),
    ("two faults: 9, then 5 in a later block", |o| later(o, 9, 5)),
    ("two faults: 9, then 6 in a later block", |o| later(o, 9, 6)),
    ("two faults: 9, then 7 in a later block", |o| later(o, 9, 7)),
    ("two faults: 9, then 10 in a later block", |o| {
        later(o, 9, 10)
    }),
    ("two faults: 10, then 4 in a later block", |o| {
        later(o, 10, 4)
    }),
    ("two faults: 10, then 5 in a later block", |o| {
        later(o, 10, 5)
    }),
    ("two faults: 10, then 6 in a later block", |o| {
        later(o, 10, 6)
    }),
    ("two faults: 10, then 7 in a later block", |o| {
        later(o, 10, 7)
    }),
    ("two faults: 10, then 9 in a later block", |o| {
        later(o, 10, 9)
    }),
    ("two faults: 15, then 4 in a later block", |o| {
        later(o, 15, 4)
    }),
    ("two faults: 15, then 5 in a later block", |o| {
        later(o, 15, 5)
    }),
    ("two faults: 15, then 6 in a later block", |o| {
        later(o, 15, 6)
    }),
    ("two faults: 15, then 7 in a later block", |o| {
        later(o, 15, 7)
    }),
    ("two faults: 15, then 9 in a later block", |o| {
        later(o, 15, 9)
    }),
    ("two faults: 15, then 10 in a later block", |o| {
        later(o, 15, 10)
    }),
    ("two faults: 15, then 15 in a later block", |o| {
        later(o, 15, 15)
    }),
    ("two faults: 9, then 15 in a later block", |o| {
        later(o, 9, 15)
    }),
    ("two faults: 10, then 15 in a later block", |o| {
        later(o, 10, 15)
    }),
    ("two faults: 4 to 7 behind a block with 8", |o| {
        (4..=7).any(|n| behind(o, n, 8))
    }),
    ("two faults: 9 behind a block with 8", |o| behind(o, 9, 8)),
    ("two faults: 10 behind a block with 8", |o| behind(o, 10, 8)),
    ("two faults: 15 behind a block with 8", |o| behind(o, 15, 8)),
    ("two faults: 15 behind a block with 11", |o| {
        behind(o, 15, 11)
    }),
    ("two faults: 4 to 7 behind a block with 11", |o| {
        (4..=7).any(|n| behind(o, n, 11))
    }),
    ("two faults: 9 behind a block with 11", |o| behind(o, 9, 11)),
    ("two faults: 10 behind a block with 11", |o| {
        behind(o, 10, 11)
    }),
    ("two faults: 8 behind a block with 11", |o| behind(o, 8, 11)),
    ("two faults: 8 and 11", |o| two(o, 8, 11)),
    ("bytes changed at random: accepted", |o| {
        o.case.faults.is_none() && o.answer.is_ok()
    }),
    ("bytes changed at random: refused", |o| {
        o.case.faults.is_none() && o.answer.is_err()
    }),
    ("stain: empty, and the source is none of the table's", |o| {
        o.answer.is_ok() && o.case.hidden >= o.case.table.len() / 2
    }),
    ("stain: holds some pixels and not others", |o| {
        o.stained && o.spared
    }),
    ("stain: the plays differ inside", |o| o.differ),
    ("stain: a copy adds", |o| effects(o, |e| *e == Effect::Adds)),
    ("stain: an exact copy of the source itself adds", |o| {
        o.layers.iter().any(|s| {
            let exact = matches!(s.layer.kind, Kind::Straight { radius, alpha: 255, dim: 0, .. } if radius == 0.0);
            s.effect == Effect::Adds && exact && !s.area.is_empty()
        })
    }),
    ("stain: an exact copy clears", |o| {
        effects(o, |e| *e == Effect::Clears { any: true })
    }),
    ("stain: cleared to nothing", |o| {
        !o.stained && effects(o, |e| *e == Effect::Clears { any: true })
    }),
    ("stain: glass whose box meets it", |o| {
        effects(o, |e| {
            *e == Effect::Spreads {
                by_window_alone: false,
            }
        })
    }),
    ("stain: glass whose window alone meets it", |o| {
        effects(o, |e| {
            *e == Effect::Spreads {
                by_window_alone: true,
            }
        })
    }),
    ("stain: glass apart from it", |o| {
        let mut added = false;
        o.layers.iter().any(|s| {
            added |= s.effect == Effect::Adds && !s.area.is_empty();
            added && s.effect == Effect::Apart && !s.area.is_empty()
        })
    }),
    ("stain: none after a refusal, with another pool", |o| {
        o.answer.is_err() && o.case.pool != o.case.other
    }),
    ("stain: none after cause 2, with another pool", |o| {
        refused(o, Cause::Sources) && o.case.pool != o.case.other
    }),
    ("top byte: an exact copy clears its source's", |o| {
        straight(o, |c, did| c.is_exact() && did.cleared)
    }),
    ("top byte: a round copy clears its source's", |o| {
        straight(o, |c, did| c.radius > 0.5 && did.cleared)
    }),
    ("top byte: coverage 0 leaves an old one", |o| {
        straight(o, |c, did| c.alpha == 255 && did.left)
    }),
    ("top byte: a straight copy clears a frame's", |o| {
        straight(o, |_, did| did.frame_cleared)
    }),
    ("top byte: an exact copy clears a frame's", |o| {
        straight(o, |c, did| c.is_exact() && did.frame_cleared)
    }),
    (
        "top byte: a straight copy of alpha 0 clears a frame's",
        |o| straight(o, |c, did| c.alpha == 0 && did.frame_cleared),
    ),
    ("top byte: coverage 0 leaves a frame's", |o| {
        straight(o, |c, did| c.alpha == 255 && did.frame_left)
    }),
    ("top byte: a frame's over a straight copy", |o| {
        o.layers.iter().any(|s| s.top_bytes.frame_over)
    }),
];

/// Beside the dearest panel of their blur. They stand apart, so that the records stay what they were.
pub const PANELS: &[Class<Outcome>] = &[
    ("panel: less dear than the dearest", |o| {
        panel(o, |p, _, _| p.need > 0 && !is_dearest(o, p))
    }),
    ("panel: as dear as the dearest, k = 1", |o| dear(o, 1)),
    ("panel: as dear as the dearest, k = 2", |o| dear(o, 2)),
    ("panel: as dear as the dearest, k = 4", |o| dear(o, 4)),
    ("panel: the same, its table is read", |o| {
        panel(o, |p, _, _| {
            is_dearest(o, p) && p.glass().is_some_and(is_read)
        })
    }),
    ("panel: the same, cut by its clip", |o| {
        panel(o, |p, window, _| is_dearest(o, p) && p.area != window)
    }),
    ("panel: the same, on one pixel", |o| {
        panel(o, |p, _, _| {
            is_dearest(o, p) && o.case.width * o.case.height == 1
        })
    }),
    ("panel: the same, on a canvas one pixel wide", |o| {
        panel(o, |p, _, _| {
            is_dearest(o, p) && o.case.width == 1 && o.case.height > 1
        })
    }),
    ("panel: the same, on a canvas one pixel high", |o| {
        panel(o, |p, _, _| {
            is_dearest(o, p) && o.case.height == 1 && o.case.width > 1
        })
    }),
    ("panel: the same, on a canvas with a side of 4096", |o| {
        panel(o, |p, _, _| {
            is_dearest(o, p) && o.case.width.max(o.case.height) == 4096
        })
    }),
];

/// Whether a panel needs as much as 02's formula says that any of its blur can.
fn is_dearest(o: &Outcome, p: &Planned) -> bool {
    let most = |glass: &Glass| dearest_need(o.case.width, o.case.height, glass.blur);
    p.glass().is_some_and(|glass| p.need == most(glass))
}

fn dear(o: &Outcome, scale: i32) -> bool {
    panel(o, |p, _, k| k == scale && is_dearest(o, p))
}

/// Whether it is counted, and the forecast is so.
fn of(o: &Outcome, is: impl Fn(&Forecast) -> bool) -> bool {
    o.counted.as_ref().is_ok_and(is)
}

/// Whether the forecast is refused by the cause of this number.
fn forbids(o: &Outcome, number: u32) -> bool {
    o.counted
        .as_ref()
        .is_err_and(|(cause, _)| *cause as u32 == number)
}

/// By its width alone.
fn wide(o: &Outcome, width: u32) -> bool {
    forbids(o, 1) && o.case.width == width && (1..=4096).contains(&o.case.height)
}

/// By its height alone.
fn high(o: &Outcome, height: u32) -> bool {
    forbids(o, 1) && o.case.height == height && (1..=4096).contains(&o.case.width)
}

/// Whether a glass that is counted is so, with its window and its k.
fn panel(o: &Outcome, is: impl Fn(&Planned, Area, i32) -> bool) -> bool {
    o.planned
        .iter()
        .any(|p| p.window.is_some_and(|(window, k)| is(p, window, k)))
}

/// A window of which the last column or row of cells is cut.
fn ragged(o: &Outcome, scale: i32) -> bool {
    panel(o, |p, Area { x0, y0, x1, y1 }, k| {
        p.need > 0 && k == scale && ((x1 - x0) % k != 0 || (y1 - y0) % k != 0)
    })
}

/// A glass with a side below 2.
fn is_thin(p: &Planned) -> bool {
    p.glass()
        .is_some_and(|g| g.rect[2] < 2.0 || g.rect[3] < 2.0)
}

fn refused(o: &Outcome, cause: Cause) -> bool {
    o.answer.is_err_and(|(c, _)| c == cause)
}

/// Whether a glass of an accepted rundown is so.
fn glazed(o: &Outcome, is: impl Fn(&Glass) -> bool) -> bool {
    let is_so = |s: &Seen| matches!(&s.layer.kind, Kind::Glass(g) if is(g));
    o.layers.iter().any(is_so)
}

/// Whether its table is read.
fn is_read(glass: &Glass) -> bool {
    glass.bezel > 0.5
}

fn has(glass: &Glass, entry: f32) -> bool {
    glass.table.contains(&entry)
}

fn largest(glass: &Glass) -> f32 {
    glass.table.iter().copied().fold(0.0, f32::max)
}

fn just_above(glass: &Glass) -> f32 {
    bend_most(glass.bezel).next_up()
}

/// Whether the glass that is refused by 15 is so, with its box.
fn torn(o: &Outcome, is: impl Fn(&Glass, Area) -> bool) -> bool {
    let Err((Cause::Bend, at)) = o.answer else {
        return false;
    };
    let show = o.case.show();
    let refused = show.layers().nth(at);
    refused.is_some_and(|l| matches!(&l.kind, Kind::Glass(g) if is(g, show.area(&l))))
}

fn paints(o: &Outcome, number: usize) -> bool {
    o.layers
        .iter()
        .any(|s| s.layer.number() == number && s.painted)
}

fn paint(o: &Outcome, is: impl Fn(&Paint) -> bool) -> bool {
    let filled = |s: &&Seen| matches!(&s.layer.kind, Kind::Fill { paint, .. } if is(paint));
    o.layers.iter().filter(filled).any(|s| s.painted)
}

/// Whether a straight copy of an accepted rundown is so, with what it did to top bytes.
fn straight(o: &Outcome, is: impl Fn(Straight, TopBytes) -> bool) -> bool {
    o.layers.iter().any(|s| {
        let copy = Straight::of(&s.layer.kind);
        copy.is_some_and(|(_, copy)| is(copy, s.top_bytes))
    })
}

fn effects(o: &Outcome, is: impl Fn(&Effect) -> bool) -> bool {
    o.layers.iter().any(|s| !s.area.is_empty() && is(&s.effect))
}

/// In the buffer's order, of a rundown whose blocks are right.
fn priorities(o: &Outcome) -> Vec<u16> {
    o.case.show().layers().map(|l| l.priority).collect()
}

/// What the layers of an accepted rundown need, if anything.
fn needs(o: &Outcome) -> impl Iterator<Item = usize> + '_ {
    let show = o.case.show();
    o.layers
        .iter()
        .map(move |s| show.need(&s.layer))
        .filter(|need| *need > 0)
}

/// Refused as one byte is wanting: in which slices.
fn byte_short(o: &Outcome) -> Option<[bool; 2]> {
    let Err((Cause::Scratch, at)) = o.answer else {
        return None;
    };
    let layer = o.case.show().layers().nth(at)?;
    let need = o.case.show().need(&layer);
    let short = o.case.scratch.map(|n| n < need);
    let by_one = o.case.scratch.iter().all(|n| *n + 1 >= need);
    by_one.then_some(short)
}

/// The two faults of a case, as the numbers of their causes and their blocks.
fn pair(o: &Outcome) -> Option<[(u32, usize); 2]> {
    let [a, b] = o.case.faults.as_deref()? else {
        return None;
    };
    Some([a, b].map(|f| (f.cause as u32, f.at)))
}

/// In either order of putting them in.
fn any_order(o: &Outcome, is: impl Fn((u32, usize), (u32, usize)) -> bool) -> bool {
    pair(o).is_some_and(|[a, b]| is(a, b) || is(b, a))
}

/// These two, of which the first is the answer.
fn two(o: &Outcome, first: u32, second: u32) -> bool {
    answered(o, first) && any_order(o, |a, b| a.0 == first && b.0 == second)
}

/// These two in one block.
fn one(o: &Outcome, first: u32, second: u32) -> bool {
    answered(o, first) && any_order(o, |a, b| a.0 == first && b.0 == second && a.1 == b.1)
}

/// The first is answered, although the second, which stands in a later block, has the lower number or
/// is tested earlier in a block.
fn later(o: &Outcome, first: u32, second: u32) -> bool {
    answered(o, first) && any_order(o, |a, b| a.0 == first && b.0 == second && a.1 < b.1)
}

/// The first is answered, although the block with the second comes before its block.
fn behind(o: &Outcome, first: u32, second: u32) -> bool {
    answered(o, first) && any_order(o, |a, b| a.0 == first && b.0 == second && a.1 > b.1)
}

fn answered(o: &Outcome, number: u32) -> bool {
    o.answer.is_err_and(|(cause, _)| cause as u32 == number)
}
