//! The sorts of playings in steps that every run has to meet.
use super::playing::{Call, Told};
use super::Outcome;
use crate::case::is_table;
use common::sorts::Class;
use reading::{last_painted, Cause, Effect, Layer, Show, MOST};
use std::rc::Rc;

pub const CLASSES: &[Class<Outcome>] = &[
    ("in order: 16 behind the last layer", |o| {
        ends(o) && painted(&o.calls)
    }),
    ("in order: 16 on an empty rundown", |o| {
        ends(o) && o.calls[0].answer == Ok(0)
    }),
    ("in order: one layer", |o| ends(o) && o.calls.len() == 3),
    ("in order: 12 layers", |o| ends(o) && o.calls.len() == 14),
    ("in order: 256 layers in 258 calls", |o| {
        ends(o) && o.calls.len() == MOST + 2
    }),
    ("in order: all eight kinds", |o| {
        ends(o) && (1..=8).all(|n| met(o, |_, c, _| c.kind() == Some(n)))
    }),
    ("in order: the pool stays, and all is as played", |o| {
        let pool = |c: &Told| c.lending.pools[0].clone();
        ends(o)
            && painted(&o.calls)
            && o.calls
                .windows(2)
                .all(|two| Rc::ptr_eq(&pool(&two[0]), &pool(&two[1])))
    }),
    ("in order: the buffer's order is another", |o| {
        ends(o) && !o.calls[0].lending.priorities().is_sorted()
    }),
    (
        "in order: order of the priorities as text is another",
        |o| ends(o) && !steps(o).is_sorted_by_key(|p| p.to_string()),
    ),
    (
        "in order: order of the priorities' low bytes is another",
        |o| ends(o) && !steps(o).is_sorted_by_key(|p| *p as u8),
    ),
    (
        "in order: order of the priorities as signed is another",
        |o| ends(o) && !steps(o).is_sorted_by_key(|p| *p as i16),
    ),
    ("paints: 1", |o| paints(o, 1)),
    ("paints: 2", |o| paints(o, 2)),
    ("paints: 3", |o| paints(o, 3)),
    ("paints: 4", |o| paints(o, 4)),
    ("paints: 5", |o| paints(o, 5)),
    ("paints: 6", |o| paints(o, 6)),
    ("paints: 7", |o| paints(o, 7)),
    ("paints: 8", |o| paints(o, 8)),
    ("fresh: shown by a later layer", |o| {
        met(o, |_, c, _| c.shows_fresh())
    }),
    ("fresh: not shown by an earlier layer", |o| {
        met(o, |_, c, _| c.keeps_old())
    }),
    (
        "fresh: shown by a later layer and not by an earlier one",
        |o| met(o, |_, c, _| c.shows_fresh() && c.keeps_old()),
    ),
    ("fresh: the hidden source's", |o| {
        met(o, |_, c, _| c.shows_fresh() && c.shows(o.hidden))
    }),
    ("fresh: another source's, and the playings differ", |o| {
        met(o, |_, c, _| {
            c.shows_fresh() && !c.shows(o.hidden) && c.differ
        })
    }),
    ("fresh: a panel over it", |o| {
        met(o, |_, c, after| {
            c.shows_fresh() && after.iter().any(|c| c.kind() == Some(4) && c.is_visible())
        })
    }),
    ("none: priority 0 is painted", |o| {
        met(o, |_, c, _| c.is_from_none() && c.priority() == Some(0))
    }),
    ("none: 65536", |o| met(o, |_, c, _| paints_from(c, 1 << 16))),
    ("none: 2^32 - 1", |o| {
        met(o, |_, c, _| paints_from(c, u32::MAX))
    }),
    ("none: its lower half is a priority that is there", |o| {
        met(o, |_, c, _| {
            c.is_from_none() && c.priority().is_some() && has(c, c.last() as u16)
        })
    }),
    ("none again: the lowest layer is painted again", |o| {
        met(o, |before, c, _| {
            c.is_from_none() && before.len() > 1 && was_painted(before, c.priority())
        })
    }),
    ("last: 0, which is there", |o| {
        met(o, |_, c, _| paints_from(c, 0) && has(c, 0))
    }),
    ("last: below all", |o| {
        met(o, |_, c, _| {
            c.is_unknown() && c.priority() == c.lending.priorities().into_iter().min()
        })
    }),
    ("last: between two priorities", |o| {
        met(o, |_, c, _| {
            c.is_unknown() && c.priority().is_some() && reaches(c, |p, last| p < last)
        })
    }),
    ("last: one below a priority", |o| {
        met(o, |_, c, _| {
            c.is_unknown() && c.priority().is_some_and(|p| p as u32 == c.last() + 1)
        })
    }),
    ("16: last is the highest", |o| {
        met(o, |_, c, _| {
            c.has_no_next() && reaches(c, |p, last| p == last)
        })
    }),
    ("16: last is above the highest", |o| {
        met(o, |_, c, _| {
            c.has_no_next() && c.is_unknown() && !is_empty(c)
        })
    }),
    ("16: last is 65535, which was painted just before", |o| {
        met(o, |before, c, _| {
            let before = before.last().and_then(Told::priority);
            c.has_no_next() && c.last() == 65535 && before == Some(65535)
        })
    }),
    ("16: last is 65535, which is not there", |o| {
        met(o, |_, c, _| {
            c.has_no_next() && c.last() == 65535 && c.is_unknown() && !is_empty(c)
        })
    }),
    ("16: an empty rundown, from none", |o| {
        met(o, |_, c, _| c.has_no_next() && c.is_from_none())
    }),
    ("16: an empty rundown, from a priority", |o| {
        met(o, |_, c, _| {
            c.has_no_next() && !c.is_from_none() && is_empty(c)
        })
    }),
    ("repeated: the same layer at two steps, visibly", |o| {
        met(o, |before, c, _| {
            again(before, c) && both_visible(before, c)
        })
    }),
    ("repeated: the second time with fresh pixels", |o| {
        met(o, |before, c, _| again(before, c) && c.shows_fresh())
    }),
    ("skipped: a lower layer that was never painted", |o| {
        !o.in_order && met(o, |before, c, _| skips(before, c))
    }),
    (
        "gone back: from a priority below one that was painted",
        |o| {
            let above = |b: &Told, c: &Told| b.priority().is_some_and(|p| p as u32 > c.last());
            met(o, |before, c, _| {
                let priority = c.priority();
                priority.is_some()
                    && before
                        .iter()
                        .any(|b| above(b, c) && b.priority() > priority)
            })
        },
    ),
    ("begin refused: 1", |o| {
        met(o, |_, c, _| c.is_refused_begin(1))
    }),
    ("begin refused: 2", |o| {
        met(o, |_, c, _| c.is_refused_begin(2))
    }),
    ("begin refused: 3", |o| {
        met(o, |_, c, _| c.is_refused_begin(3))
    }),
    ("begin refused: 4", |o| {
        met(o, |_, c, _| c.is_refused_begin(4))
    }),
    ("begin refused: 5", |o| {
        met(o, |_, c, _| c.is_refused_begin(5))
    }),
    ("begin refused: 6", |o| {
        met(o, |_, c, _| c.is_refused_begin(6))
    }),
    ("begin refused: 7", |o| {
        met(o, |_, c, _| c.is_refused_begin(7))
    }),
    ("begin refused: 8", |o| {
        met(o, |_, c, _| c.is_refused_begin(8))
    }),
    ("begin refused: 9", |o| {
        met(o, |_, c, _| c.is_refused_begin(9))
    }),
    ("begin refused: 10", |o| {
        met(o, |_, c, _| c.is_refused_begin(10))
    }),
    ("begin refused: 11", |o| {
        met(o, |_, c, _| c.is_refused_begin(11))
    }),
    ("begin refused: 15", |o| {
        met(o, |_, c, _| c.is_refused_begin(15))
    }),
    ("step refused: 1", |o| {
        met(o, |_, c, _| c.is_refused_step(1))
    }),
    ("step refused: 2", |o| {
        met(o, |_, c, _| c.is_refused_step(2))
    }),
    ("step refused: 3", |o| {
        met(o, |_, c, _| c.is_refused_step(3))
    }),
    ("step refused: 4", |o| {
        met(o, |_, c, _| c.is_refused_step(4))
    }),
    ("step refused: 5", |o| {
        met(o, |_, c, _| c.is_refused_step(5))
    }),
    ("step refused: 6", |o| {
        met(o, |_, c, _| c.is_refused_step(6))
    }),
    ("step refused: 7", |o| {
        met(o, |_, c, _| c.is_refused_step(7))
    }),
    ("step refused: 8", |o| {
        met(o, |_, c, _| c.is_refused_step(8))
    }),
    ("step refused: 9", |o| {
        met(o, |_, c, _| c.is_refused_step(9))
    }),
    ("step refused: 10", |o| {
        met(o, |_, c, _| c.is_refused_step(10))
    }),
    ("step refused: 11", |o| {
        met(o, |_, c, _| c.is_refused_step(11))
    }),
    ("step refused: 15", |o| {
        met(o, |_, c, _| c.is_refused_step(15))
    }),
    ("step refused: 11, of another layer than the next", |o| {
        met(o, |_, c, _| {
            c.is_refused_step(11) && next(c).is_some_and(|layer| fits(c, &layer))
        })
    }),
    ("step refused: 11, of a layer below the last", |o| {
        met(o, |_, c, _| c.is_refused_step(11) && is_below(c))
    }),
    ("no layer is above last, and the step is refused: 1", |o| {
        met(o, |_, c, _| c.is_refused_step(1) && is_past(c))
    }),
    ("no layer is above last, and the step is refused: 2", |o| {
        met(o, |_, c, _| c.is_refused_step(2) && is_past(c))
    }),
    ("no layer is above last, and the step is refused: 3", |o| {
        met(o, |_, c, _| c.is_refused_step(3) && is_past(c))
    }),
    ("no layer is above last, and the step is refused: 4", |o| {
        met(o, |_, c, _| c.is_refused_step(4) && is_past(c))
    }),
    ("no layer is above last, and the step is refused: 8", |o| {
        met(o, |_, c, _| c.is_refused_step(8) && is_past(c))
    }),
    ("no layer is above last, and the step is refused: 9", |o| {
        met(o, |_, c, _| c.is_refused_step(9) && is_past(c))
    }),
    ("no layer is above last, and the step is refused: 10", |o| {
        met(o, |_, c, _| c.is_refused_step(10) && is_past(c))
    }),
    ("no layer is above last, and the step is refused: 11", |o| {
        met(o, |_, c, _| c.is_refused_step(11) && is_past(c))
    }),
    ("between two painted layers: 1", |o| {
        between(o, |c| c.is_refused_step(1))
    }),
    ("between two painted layers: 2, the pool's length", |o| {
        between(o, |c| c.is_refused_step(2) && is_table(&c.lending.table))
    }),
    ("between two painted layers: 2, the table", |o| {
        between(o, |c| c.is_refused_step(2) && !is_table(&c.lending.table))
    }),
    ("between two painted layers: 3", |o| {
        between(o, |c| c.is_refused_step(3))
    }),
    ("between two painted layers: 4", |o| {
        between(o, |c| c.is_refused_step(4))
    }),
    ("between two painted layers: 8", |o| {
        between(o, |c| c.is_refused_step(8))
    }),
    ("between two painted layers: 9", |o| {
        between(o, |c| c.is_refused_step(9))
    }),
    ("between two painted layers: 10", |o| {
        between(o, |c| c.is_refused_step(10))
    }),
    ("between two painted layers: 11", |o| {
        between(o, |c| c.is_refused_step(11))
    }),
    (
        "between two painted layers: 11, of another layer than the next",
        |o| {
            between(o, |c| {
                c.is_refused_step(11) && next(c).is_some_and(|layer| fits(c, &layer))
            })
        },
    ),
    ("between two painted layers: 16", |o| {
        between(o, |c| c.has_no_next())
    }),
    ("between two painted layers: a begin", |o| {
        between(o, |c| c.call == Call::Begin && c.answer.is_ok())
    }),
    ("between two painted layers: a begin that is refused", |o| {
        between(o, |c| c.call == Call::Begin && c.answer.is_err())
    }),
    ("no begin: a step comes first", |o| {
        o.calls[0].step.is_some()
    }),
    ("edited: the rundown, from one layer to the next", |o| {
        follows(o, |b, c| b.lending.rundown != c.lending.rundown)
    }),
    ("edited: another width of the same canvas", |o| {
        follows(o, |b, c| b.lending.width != c.lending.width)
    }),
    ("edited: another table of a pool as long", |o| {
        follows(o, |b, c| b.lending.table != c.lending.table)
    }),
    ("edited: other lengths of scratch", |o| {
        follows(o, |b, c| b.lending.scratch != c.lending.scratch)
    }),
    ("stain: grows with a step", |o| {
        met(o, |before, c, _| {
            c.stained > stained(before) && stained(before) > 0
        })
    }),
    ("stain: an exact copy's step clears", |o| {
        met(o, |_, c, _| {
            c.effect() == Some(Effect::Clears { any: true })
        })
    }),
    ("stain: cleared, and the playings agree again", |o| {
        met(o, |before, c, _| {
            before.last().is_some_and(|b| b.differ) && !c.differ && c.stained == 0
        })
    }),
    ("stain: the same layer adds twice", |o| {
        met(o, |before, c, _| {
            c.effect() == Some(Effect::Adds) && c.stained > 0 && again(before, c)
        })
    }),
    ("stain: a layer adds again what was cleared", |o| {
        met(o, |before, c, _| {
            let added = |b: &Told| b.effect() == Some(Effect::Adds) && b.priority() == c.priority();
            c.stained > stained(before) && added(c) && before.iter().any(added)
        })
    }),
    ("stain: a panel spreads it by its window alone", |o| {
        let by_window_alone = true;
        met(o, |_, c, _| {
            c.effect() == Some(Effect::Spreads { by_window_alone })
        })
    }),
    ("stain: a panel spreads it that was apart before", |o| {
        met(o, |before, c, _| {
            let spreads = matches!(c.effect(), Some(Effect::Spreads { .. }));
            let apart =
                |b: &Told| b.effect() == Some(Effect::Apart) && b.priority() == c.priority();
            spreads && before.iter().any(apart)
        })
    }),
    ("stain: a panel apart from it", |o| {
        met(o, |_, c, _| {
            c.effect() == Some(Effect::Apart) && c.stained > 0
        })
    }),
    ("stain: the playings differ inside, agree outside", |o| {
        met(o, |_, c, _| c.differ && c.stained < c.lending.canvas)
    }),
    ("stain: they differ, and the call is refused", |o| {
        met(o, |_, c, _| c.differ && c.answer.is_err())
    }),
    ("stain: they differ, and the call is a begin", |o| {
        met(o, |_, c, _| c.differ && c.call == Call::Begin)
    }),
    (
        "stain: empty, for the layer that would add is skipped",
        |o| {
            !o.in_order
                && met(o, |before, c, _| {
                    c.stained == 0 && skips(before, c) && shows_below(before, c, o.hidden)
                })
        },
    ),
    ("stain: empty, for the source is none of the table's", |o| {
        painted(&o.calls) && o.hidden >= o.calls[0].lending.table.len() / 2
    }),
    ("stain: empty after a refusal, with another pool", |o| {
        met(o, |before, c, _| {
            let [pool, other] = &c.lending.pools;
            c.answer.is_err() && !painted(before) && pool != other
        })
    }),
];

impl Told {
    /// What a step is given, 0 for a begin.
    fn last(&self) -> u32 {
        match self.call {
            Call::Begin => 0,
            Call::Step(last) => last,
        }
    }

    fn is_step(&self) -> bool {
        self.call != Call::Begin
    }

    fn is_from_none(&self) -> bool {
        self.is_step() && last_painted(self.last()).is_none()
    }

    /// A step from a priority that the rundown has not.
    fn is_unknown(&self) -> bool {
        let last = last_painted(self.last());
        self.is_step() && last.is_some_and(|last| !has(self, last))
    }

    fn is_refused(&self, number: u32) -> bool {
        self.answer.is_err_and(|(cause, _)| cause as u32 == number)
    }

    /// A begin that is refused by the cause of this number.
    fn is_refused_begin(&self, number: u32) -> bool {
        !self.is_step() && self.is_refused(number)
    }

    /// A step that is.
    fn is_refused_step(&self, number: u32) -> bool {
        self.is_step() && self.is_refused(number)
    }

    fn has_no_next(&self) -> bool {
        self.answer == Err((Cause::Next, 0))
    }

    fn priority(&self) -> Option<u16> {
        self.step.as_ref().map(|step| step.layer.priority)
    }

    fn kind(&self) -> Option<usize> {
        self.step.as_ref().map(|step| step.layer.number())
    }

    fn effect(&self) -> Option<Effect> {
        self.step.as_ref().map(|step| step.effect)
    }

    fn shows(&self, source: usize) -> bool {
        let step = self.step.as_ref();
        step.is_some_and(|step| step.layer.source() == Some(source as u32))
    }

    fn is_visible(&self) -> bool {
        let step = self.step.as_ref();
        step.is_some_and(|step| step.painted.visible)
    }

    fn shows_fresh(&self) -> bool {
        let step = self.step.as_ref();
        step.is_some_and(|step| step.painted.shows_fresh)
    }

    fn keeps_old(&self) -> bool {
        let step = self.step.as_ref();
        step.is_some_and(|step| step.painted.keeps_old)
    }
}

/// Whether a call is so, with those before it and those behind it.
fn met(o: &Outcome, is: impl Fn(&[Told], &Told, &[Told]) -> bool) -> bool {
    let calls = &o.calls;
    (0..calls.len()).any(|i| is(&calls[..i], &calls[i], &calls[i + 1..]))
}

/// Whether a call stands behind one that paints a layer and before another, and is so.
fn between(o: &Outcome, is: impl Fn(&Told) -> bool) -> bool {
    met(o, |before, c, after| {
        is(c) && painted(before) && painted(after)
    })
}

/// Whether two calls that stand side by side and both paint are so.
fn follows(o: &Outcome, is: impl Fn(&Told, &Told) -> bool) -> bool {
    let paint = |two: &[Told]| two.iter().all(|c| c.step.is_some());
    o.calls
        .windows(2)
        .any(|two| paint(two) && is(&two[0], &two[1]))
}

/// A playing in order that was made to its end.
fn ends(o: &Outcome) -> bool {
    o.in_order && o.calls.last().is_some_and(Told::has_no_next)
}

fn painted(calls: &[Told]) -> bool {
    calls.iter().any(|c| c.step.is_some())
}

fn was_painted(before: &[Told], priority: Option<u16>) -> bool {
    priority.is_some() && before.iter().any(|b| b.priority() == priority)
}

/// The priorities that were painted.
fn steps(o: &Outcome) -> Vec<u16> {
    o.calls.iter().filter_map(Told::priority).collect()
}

fn paints(o: &Outcome, number: usize) -> bool {
    met(o, |_, c, _| c.kind() == Some(number) && c.is_visible())
}

fn paints_from(c: &Told, last: u32) -> bool {
    c.call == Call::Step(last) && c.step.is_some()
}

/// The pixels that the stain holds before a call.
fn stained(before: &[Told]) -> usize {
    before.last().map_or(0, |b| b.stained)
}

fn is_empty(c: &Told) -> bool {
    c.lending.rundown.is_empty()
}

/// Whether the rundown has this priority.
fn has(c: &Told, priority: u16) -> bool {
    c.lending.priorities().contains(&priority)
}

/// Whether one of its priorities is so beside the last painted one.
fn reaches(c: &Told, is: impl Fn(u32, u32) -> bool) -> bool {
    let priorities = c.lending.priorities();
    priorities.into_iter().any(|p| is(p as u32, c.last()))
}

/// Whether a step is given a priority with no layer above it.
fn is_past(c: &Told) -> bool {
    !c.is_from_none() && !reaches(c, |p, last| p > last)
}

/// Whether the same layer as at the call before is painted.
fn again(before: &[Told], c: &Told) -> bool {
    before.last().is_some_and(|b| {
        b.lending.rundown == c.lending.rundown && was_painted(std::slice::from_ref(b), c.priority())
    })
}

fn both_visible(before: &[Told], c: &Told) -> bool {
    c.is_visible() && before.last().is_some_and(Told::is_visible)
}

/// Whether a layer is painted above one that never was.
fn skips(before: &[Told], c: &Told) -> bool {
    c.priority().is_some_and(|priority| {
        let below = c.lending.priorities().into_iter().filter(|p| *p < priority);
        below.into_iter().any(|p| !was_painted(before, Some(p)))
    })
}

/// Whether a layer below the painted one, which was never painted, would show the source.
fn shows_below(before: &[Told], c: &Told, source: usize) -> bool {
    let show = c.lending.show();
    show.layers().any(|layer| {
        Some(layer.priority) < c.priority()
            && layer.source() == Some(source as u32)
            && !show.area(&layer).is_empty()
            && !was_painted(before, Some(layer.priority))
    })
}

/// The layer that a step would paint, had it more scratch.
fn next(c: &Told) -> Option<Layer> {
    let enough = Show {
        scratch: [usize::MAX; 2],
        ..c.lending.show()
    };
    enough.step(last_painted(c.last())).ok()
}

/// Whether the scratch is enough for this layer.
fn fits(c: &Told, layer: &Layer) -> bool {
    let show = c.lending.show();
    show.scratch.iter().all(|n| show.need(layer) <= *n)
}

/// Whether the block that is refused has at most the last painted priority.
fn is_below(c: &Told) -> bool {
    let at = c.answer.map_or_else(|(_, at)| at, |_| 0);
    let priority = c.lending.priorities().into_iter().nth(at);
    priority.is_some_and(|p| p as u32 <= c.last()) && !c.is_from_none()
}
