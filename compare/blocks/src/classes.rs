//! The sorts of blocks, of places and of tables that every run has to meet.
use crate::one::Case;
use crate::place::{Filling, Placed};
use crate::tables::Made;
use common::layers::draw::{bend_most, float_at};
use common::layers::faults::Fault;
use common::layers::fields::{BEZEL, KIND, TABLE};
use common::sorts::Class;
use reading::{Cause, BLOCK, BODY};

/// A block: how it is answered, and what stands wrong in it.
pub const BLOCKS: &[Class<Case>] = &[
    ("passes: fill, solid", |c| passes(c, 1, 0)),
    ("passes: fill, VGrad", |c| passes(c, 1, 1)),
    ("passes: fill, Linear", |c| passes(c, 1, 2)),
    ("passes: fill, Radial", |c| passes(c, 1, 3)),
    ("passes: stroke", |c| passes(c, 2, 0)),
    ("passes: shadow", |c| passes(c, 3, 0)),
    ("passes: glass", |c| passes(c, 4, 0)),
    ("passes: straight copy", |c| passes(c, 5, 0)),
    ("passes: scaled copy", |c| passes(c, 6, 0)),
    ("passes: genie copy", |c| passes(c, 7, 0)),
    ("passes: frame", |c| passes(c, 8, 0)),
    ("passes: with a -0", |c| {
        c.answer.is_ok() && c.form.floats.iter().any(|f| minus_zero(c, f.at))
    }),
    ("passes: a float at its upper end", |c| {
        c.answer.is_ok() && c.form.floats.iter().any(|f| float(c, f.at) == f.hi)
    }),
    ("passes: a float at its lower end, not 0", |c| {
        let at_end = |at, lo| lo < 0.0 && float(c, at) == lo;
        c.answer.is_ok() && c.form.floats.iter().any(|f| at_end(f.at, f.lo))
    }),
    ("passes: bezel 0.5 and a NaN in the table", |c| {
        c.answer.is_ok() && c.form.kind == 4 && float(c, BEZEL) == 0.5 && float(c, TABLE).is_nan()
    }),
    ("passes: bezel just above 0.5", |c| {
        c.answer.is_ok() && c.form.kind == 4 && float(c, BEZEL) == 0.5f32.next_up()
    }),
    ("passes: the table ends with -0", |c| {
        c.answer.is_ok() && c.form.kind == 4 && float(c, BEZEL) > 0.5 && minus_zero(c, 232)
    }),
    ("passes: an entry equal to the product", |c| {
        c.answer.is_ok() && has(c, bend_most)
    }),
    (
        "passes: an entry equal to a product that was rounded up",
        |c| c.answer.is_ok() && has(c, bend_most) && error(float(c, BEZEL)) > 0.0,
    ),
    ("passes: entry 0 equal to the product", |c| {
        c.answer.is_ok() && has_at(c, 0, bend_most)
    }),
    ("passes: entry 31 equal to the product", |c| {
        c.answer.is_ok() && has_at(c, 31, bend_most)
    }),
    (
        "passes: an entry equal to the product, bezel just above 0.5",
        |c| c.answer.is_ok() && has(c, bend_most) && float(c, BEZEL) == 0.5f32.next_up(),
    ),
    ("passes: an entry equal to the product, bezel 256", |c| {
        c.answer.is_ok() && has(c, bend_most) && float(c, BEZEL) == 256.0
    }),
    ("passes: bezel 0.5 and an entry above the product", |c| {
        let above = |i| entry(c, i) > bend_most(0.5);
        c.answer.is_ok() && c.form.kind == 4 && float(c, BEZEL) == 0.5 && (0..33).any(above)
    }),
    ("passes: bezel below 0.5, entry 0 above the product", |c| {
        let bezel = float(c, BEZEL);
        let above = entry(c, 0) > bend_most(bezel);
        c.answer.is_ok() && c.form.kind == 4 && bezel < 0.5 && above
    }),
    ("refused: 4", |c| c.answer == Err(Cause::Check)),
    ("refused: 5", |c| c.answer == Err(Cause::Form)),
    ("refused: 6", |c| c.answer == Err(Cause::Float)),
    ("refused: 7", |c| c.answer == Err(Cause::Integer)),
    ("refused: 15", |c| torn(c)),
    ("refused: 15, bezel just above 0.5", |c| {
        torn(c) && float(c, BEZEL) == 0.5f32.next_up()
    }),
    ("refused: 15, bezel 256", |c| {
        torn(c) && float(c, BEZEL) == 256.0
    }),
    ("refused: 15, entry 0 one float above the product", |c| {
        torn(c) && has_at(c, 0, just_above)
    }),
    ("refused: 15, entry 31 one float above the product", |c| {
        torn(c) && has_at(c, 31, just_above)
    }),
    ("refused: 15, an entry between one float above", |c| {
        torn(c) && (1..31).any(|i| has_at(c, i, just_above))
    }),
    ("refused: 15, an entry of 1024", |c| {
        torn(c) && has(c, |_| 1024.0)
    }),
    ("refused: 15, a side below 2: the box is empty", |c| {
        torn(c) && (float(c, 40) < 2.0 || float(c, 44) < 2.0)
    }),
    ("fault: check", |c| alone(c, Fault::Check)),
    ("fault: kind", |c| alone(c, Fault::Kind)),
    ("fault: paint", |c| alone(c, Fault::Paint)),
    ("fault: tag", |c| alone(c, Fault::Tag)),
    ("fault: flag bit", |c| alone(c, Fault::Flag)),
    ("fault: unused byte", |c| alone(c, Fault::UnusedByte)),
    ("fault: NaN in an unused float", |c| {
        alone(c, Fault::UnusedNan)
    }),
    ("fault: float", |c| alone(c, Fault::Float)),
    ("fault: table entry", |c| alone(c, Fault::Entry)),
    ("fault: last table entry", |c| alone(c, Fault::LastEntry)),
    ("fault: integer", |c| alone(c, Fault::Integer)),
    ("fault: table entry above the product", |c| {
        alone(c, Fault::Bend)
    }),
    ("two faults: 4 and 5", |c| two(c, Cause::Check, Cause::Form)),
    ("two faults: 4 and 6", |c| {
        two(c, Cause::Check, Cause::Float)
    }),
    ("two faults: 4 and 7", |c| {
        two(c, Cause::Check, Cause::Integer)
    }),
    ("two faults: 5 and 6", |c| two(c, Cause::Form, Cause::Float)),
    ("two faults: 5 and 7", |c| {
        two(c, Cause::Form, Cause::Integer)
    }),
    ("two faults: 6 and 7", |c| {
        two(c, Cause::Float, Cause::Integer)
    }),
    ("two faults: 4 and 15", |c| {
        two(c, Cause::Check, Cause::Bend)
    }),
    ("two faults: 5 and 15", |c| two(c, Cause::Form, Cause::Bend)),
    ("two faults: 6 and 15", |c| {
        two(c, Cause::Float, Cause::Bend)
    }),
    ("two faults: 7 and 15", |c| {
        two(c, Cause::Integer, Cause::Bend)
    }),
    ("bytes changed at random", |c| c.faults.is_none()),
    ("bytes changed at random: passes", |c| {
        c.faults.is_none() && c.answer.is_ok()
    }),
];

fn float(c: &Case, at: usize) -> f32 {
    float_at(c.block.first_chunk().expect("a block has a body"), at)
}

/// Entry i of the table.
fn entry(c: &Case, i: usize) -> f32 {
    float(c, TABLE + 4 * i)
}

/// Whether the table is read, and entry i is this of the bezel.
fn has_at(c: &Case, i: usize, of: fn(f32) -> f32) -> bool {
    let bezel = float(c, BEZEL);
    c.block[KIND] == 4 && bezel > 0.5 && entry(c, i) == of(bezel)
}

/// Whether any entry of a table that is read is so.
fn has(c: &Case, of: fn(f32) -> f32) -> bool {
    (0..33).any(|i| has_at(c, i, of))
}

fn just_above(bezel: f32) -> f32 {
    bend_most(bezel).next_up()
}

/// By how much the product is above the exact one, which f64 holds.
fn error(bezel: f32) -> f64 {
    bend_most(bezel) as f64 - bezel as f64 * 1.6f32 as f64
}

fn torn(c: &Case) -> bool {
    c.answer == Err(Cause::Bend)
}

fn minus_zero(c: &Case, at: usize) -> bool {
    float(c, at).to_bits() == 1 << 31
}

fn passes(c: &Case, kind: u8, paint: u8) -> bool {
    c.answer.is_ok() && c.form.kind == kind && c.form.paint == paint
}

fn alone(c: &Case, fault: Fault) -> bool {
    c.faults.as_deref() == Some(&[fault])
}

fn two(c: &Case, first: Cause, second: Cause) -> bool {
    let Some([a, b]) = c.faults.as_deref() else {
        return false;
    };
    let causes = [a.cause(), b.cause()];
    causes == [first, second] || causes == [second, first]
}

/// A place in a buffer: where it lies, what stands there, and what stands around it.
pub const PLACES: &[Class<Placed>] = &[
    ("at 0: passes", |p| passing(p) && p.at == 0),
    ("at 0: refused", |p| failing(p) && p.at == 0),
    ("at an odd place: passes", |p| passing(p) && odd(p)),
    ("at an odd place: refused", |p| failing(p) && odd(p)),
    ("at 4 n + 2: passes", |p| passing(p) && p.at % 4 == 2),
    ("at a multiple of 512: passes", |p| passing(p) && nth(p)),
    ("at a multiple of 512: refused", |p| failing(p) && nth(p)),
    ("at the last whole place: passes", |p| passing(p) && last(p)),
    ("at the last whole place: refused", |p| {
        failing(p) && last(p)
    }),
    ("at the last whole place, an odd one: passes", |p| {
        passing(p) && last(p) && odd(p)
    }),
    ("at the last whole place, an odd one: refused", |p| {
        failing(p) && last(p) && odd(p)
    }),
    ("the buffer is the block: passes", |p| {
        passing(p) && p.buffer.len() == BLOCK
    }),
    ("the buffer is the block: refused", |p| {
        failing(p) && p.buffer.len() == BLOCK
    }),
    ("one past the last whole place", past),
    ("one past it: the last byte of one that would pass", |p| {
        past(p) && lacks(p, 1)
    }),
    ("one past it: the same at an odd place", |p| {
        past(p) && lacks(p, 1) && odd(p)
    }),
    ("one past it: 511 bytes, at 0", |p| past(p) && p.at == 0),
    ("one past it: behind the place of one that passes", |p| {
        past(p) && p.at == p.around.at() + 1 && p.case.answer.is_ok()
    }),
    ("the check of one that would pass is cut off", |p| {
        p.at == p.around.at() && lacks(p, BLOCK - BODY)
    }),
    ("at the buffer's end", |p| {
        p.at == p.buffer.len() && p.at > 0
    }),
    ("one byte beyond the end", |p| p.at == p.buffer.len() + 1),
    ("a block and more beyond the end", |p| {
        p.at >= p.buffer.len() + BLOCK && !wraps_at(p)
    }),
    ("no byte, at 0", |p| p.buffer.is_empty() && p.at == 0),
    ("less than a block, at 0", |p| less(p) && p.at == 0),
    ("less than a block, at + 512 wraps", |p| {
        less(p) && wraps_at(p)
    }),
    ("at + 512 wraps", wraps_at),
    ("at + 512 is 2^64", |p| p.at == usize::MAX - (BLOCK - 1)),
    ("at + 512 is 2^64 - 1", |p| p.at == usize::MAX - BLOCK),
    ("at is 2^64 - 1", |p| p.at == usize::MAX),
    ("2^16 and the place of one that passes", |p| further(p, 16)),
    ("2^32 and the place of one that passes", |p| further(p, 32)),
    ("2^63 and the place of one that passes", |p| further(p, 63)),
    ("passes, before it blocks", |p| {
        passing(p) && before(p, Filling::Blocks)
    }),
    ("passes, before it NaNs", |p| {
        passing(p) && before(p, Filling::Nans)
    }),
    ("passes, before it FF", |p| {
        passing(p) && before(p, Filling::Ones)
    }),
    ("passes, before it random bytes", |p| {
        passing(p) && before(p, Filling::Random)
    }),
    ("passes, behind it blocks", |p| {
        passing(p) && behind(p, Filling::Blocks)
    }),
    ("passes, behind it NaNs", |p| {
        passing(p) && behind(p, Filling::Nans)
    }),
    ("passes, behind it FF", |p| {
        passing(p) && behind(p, Filling::Ones)
    }),
    ("passes, behind it random bytes", |p| {
        passing(p) && behind(p, Filling::Random)
    }),
    ("refused, before it blocks", |p| {
        failing(p) && before(p, Filling::Blocks)
    }),
    ("refused, before it NaNs", |p| {
        failing(p) && before(p, Filling::Nans)
    }),
    ("refused, before it FF", |p| {
        failing(p) && before(p, Filling::Ones)
    }),
    ("refused, before it random bytes", |p| {
        failing(p) && before(p, Filling::Random)
    }),
    ("refused, behind it blocks", |p| {
        failing(p) && behind(p, Filling::Blocks)
    }),
    ("refused, behind it NaNs", |p| {
        failing(p) && behind(p, Filling::Nans)
    }),
    ("refused, behind it FF", |p| {
        failing(p) && behind(p, Filling::Ones)
    }),
    ("refused, behind it random bytes", |p| {
        failing(p) && behind(p, Filling::Random)
    }),
    ("a block before one that is refused, itself passed", |p| {
        p.answer.is_ok() && p.case.answer.is_err() && p.at + BLOCK == p.around.at()
    }),
    ("a block behind one that is refused, itself passed", |p| {
        p.answer.is_ok() && p.case.answer.is_err() && p.at == p.around.at() + BLOCK
    }),
    ("bytes of the block and of what is before it", |p| {
        let own = p.around.at();
        p.at < own && own < p.at + BLOCK && p.at + BLOCK <= p.buffer.len()
    }),
    ("bytes of the block and of what is behind it", |p| {
        let own = p.around.at();
        own < p.at && p.at < own + BLOCK && p.at + BLOCK <= p.buffer.len()
    }),
    ("at an odd place: 4", |p| odd_cause(p, Cause::Check)),
    ("at an odd place: 5", |p| odd_cause(p, Cause::Form)),
    ("at an odd place: 6", |p| odd_cause(p, Cause::Float)),
    ("at an odd place: 7", |p| odd_cause(p, Cause::Integer)),
    ("at an odd place: 15", |p| odd_cause(p, Cause::Bend)),
    ("at an odd place: fill passes", |p| odd_kind(p, 1)),
    ("at an odd place: stroke passes", |p| odd_kind(p, 2)),
    ("at an odd place: shadow passes", |p| odd_kind(p, 3)),
    ("at an odd place: glass passes", |p| odd_kind(p, 4)),
    ("at an odd place: straight copy passes", |p| odd_kind(p, 5)),
    ("at an odd place: scaled copy passes", |p| odd_kind(p, 6)),
    ("at an odd place: genie copy passes", |p| odd_kind(p, 7)),
    ("at an odd place: frame passes", |p| odd_kind(p, 8)),
    ("at an odd place: one bit changed", |p| {
        failing(p) && odd(p) && p.bit.is_some_and(|bit| bit < 8 * BODY)
    }),
    ("at an odd place: one bit of the check changed", |p| {
        failing(p) && odd(p) && p.bit.is_some_and(|bit| bit >= 8 * BODY)
    }),
    ("in other surroundings again: passes", |p| {
        passing(p) && again(p)
    }),
    ("in other surroundings again: refused", |p| {
        failing(p) && again(p)
    }),
    ("again, and once at an odd place: passes", |p| {
        passing(p) && again(p) && parted(p)
    }),
    ("again, and once at an odd place: refused", |p| {
        failing(p) && again(p) && parted(p)
    }),
];

/// Whether the block passes at its own place, where it lies whole.
fn passing(p: &Placed) -> bool {
    p.is_own() && p.answer.is_ok()
}

fn failing(p: &Placed) -> bool {
    p.is_own() && p.answer.is_err()
}

fn odd(p: &Placed) -> bool {
    p.at % 2 == 1
}

/// The place of a rundown's block that is not the first.
fn nth(p: &Placed) -> bool {
    p.at > 0 && p.at.is_multiple_of(BLOCK)
}

fn last(p: &Placed) -> bool {
    p.at > 0 && p.at.checked_add(BLOCK) == Some(p.buffer.len())
}

fn past(p: &Placed) -> bool {
    p.at.checked_add(BLOCK) == Some(p.buffer.len() + 1)
}

/// So many bytes are wanting at the end of a block that would pass.
fn lacks(p: &Placed, bytes: usize) -> bool {
    p.around.cut == bytes && p.case.answer.is_ok()
}

fn less(p: &Placed) -> bool {
    !p.buffer.is_empty() && p.buffer.len() < BLOCK
}

fn wraps_at(p: &Placed) -> bool {
    p.at.checked_add(BLOCK).is_none()
}

/// The place of a block that passes, but for a bit that is set above it.
fn further(p: &Placed, bit: u32) -> bool {
    p.at == p.around.at() + (1 << bit) && p.around.cut == 0 && p.case.answer.is_ok()
}

/// A block's bytes or more of this stand before it.
fn before(p: &Placed, filling: Filling) -> bool {
    p.around.before.0 == filling && p.around.before.1 >= BLOCK
}

fn behind(p: &Placed, filling: Filling) -> bool {
    p.around.behind.0 == filling && p.around.behind.1 >= BLOCK
}

fn odd_cause(p: &Placed, cause: Cause) -> bool {
    p.is_own() && odd(p) && p.answer == Err(cause)
}

fn odd_kind(p: &Placed, kind: u8) -> bool {
    passing(p) && odd(p) && p.case.form.kind == kind
}

/// The same block stood somewhere else before, whole.
fn again(p: &Placed) -> bool {
    p.earlier.is_some_and(|earlier| earlier.cut == 0)
}

/// One of both places is odd, one is even.
fn parted(p: &Placed) -> bool {
    p.earlier.is_some_and(|e| e.at() % 2 != p.at % 2)
}

/// A table as kash-ui works it out.
pub const TABLES: &[Class<Made>] = &[
    ("bezel just above 0.5", |t| t.bezel == 0.5f32.next_up()),
    ("bezel below 1", |t| t.bezel < 1.0),
    ("bezel of 128 and more", |t| t.bezel >= 128.0),
    ("bezel 256", |t| t.bezel == 256.0),
    ("strength 0: every entry is 0", |t| {
        t.strength == 0.0 && t.largest() == 0.0
    }),
    ("strength 1", |t| t.strength == 1.0),
    ("no entry held to the product", |t| {
        0.0 < t.largest() && t.largest() < bend_most(t.bezel)
    }),
    ("some entries held to the product", |t| {
        t.entries[0] == bend_most(t.bezel) && t.entries[30] < bend_most(t.bezel)
    }),
    ("held to a product that was rounded up", |t| {
        t.largest() == bend_most(t.bezel) && error(t.bezel) > 0.0
    }),
    ("held to a product that was rounded down", |t| {
        t.largest() == bend_most(t.bezel) && error(t.bezel) < 0.0
    }),
];
