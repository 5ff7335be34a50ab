//! The sorts of calls that every run has to meet.
use crate::many::Call;
use crate::rundown::Order;
use common::sorts::Class;
use reading::{Cause, BLOCK, MOST};

/// A call of add or remove.
pub const CALLS: &[Class<Call>] = &[
    ("add: accepted", |c| c.adds && c.answer.is_ok()),
    ("add: the first", |c| c.adds && c.answer == Ok(1)),
    ("add: the 256th", |c| c.adds && c.answer == Ok(MOST)),
    ("add: just enough bytes", |c| {
        c.adds && c.answer.is_ok() && c.len == (c.count + 1) * BLOCK
    }),
    ("add: 3, more than 256", |c| c.adds && over(c)),
    ("add: 3, a count that wraps", |c| c.adds && wraps(c)),
    ("add: 3, buffer too short", |c| c.adds && short(c)),
    ("add: 3, one byte wanting", |c| c.adds && one_short(c)),
    ("add: 4 of a held block", |c| c.adds && c.held(Cause::Check)),
    ("add: 5 of a held block", |c| c.adds && c.held(Cause::Form)),
    ("add: 6 of a held block", |c| c.adds && c.held(Cause::Float)),
    ("add: 7 of a held block", |c| {
        c.adds && c.held(Cause::Integer)
    }),
    ("add: 15 of a held block", |c| c.adds && c.held(Cause::Bend)),
    ("add: 15 of a held block, 4 to 7 of a later one", |c| {
        c.adds && torn_before(c)
    }),
    ("add: 15 of a held block, a priority twice", |c| {
        c.adds && c.held(Cause::Bend) && c.twice
    }),
    ("add: 8 of a held block", |c| {
        c.adds && c.held(Cause::Priority)
    }),
    ("add: 8 of a held block, 15 of the new bytes", |c| {
        c.adds && c.held(Cause::Priority) && c.new == Some(Cause::Bend)
    }),
    ("add: 5 of the new bytes", |c| c.at_count(Cause::Form)),
    ("add: 6 of the new bytes", |c| c.at_count(Cause::Float)),
    ("add: 7 of the new bytes", |c| c.at_count(Cause::Integer)),
    ("add: 15 of the new bytes", |c| c.at_count(Cause::Bend)),
    ("add: 15 of the new bytes, priority held", |c| {
        c.at_count(Cause::Bend) && c.place.is_some()
    }),
    ("add: 15 of the new bytes, no room", |c| {
        c.at_count(Cause::Bend) && !c.has_room()
    }),
    ("add: 8 of the new bytes", |c| c.at_count(Cause::Priority)),
    ("add: 12, 256 are held", |c| {
        c.at_count(Cause::Room) && c.count == MOST
    }),
    ("add: 12, 256 are held and bytes left", |c| {
        c.at_count(Cause::Room) && c.count == MOST && c.len >= (MOST + 1) * BLOCK
    }),
    ("add: 12, not a byte left", |c| {
        c.at_count(Cause::Room) && c.len == c.count * BLOCK
    }),
    ("add: 12, one byte wanting", |c| {
        c.at_count(Cause::Room) && c.count < MOST && c.len == (c.count + 1) * BLOCK - 1
    }),
    ("add: held block and new bytes faulty", |c| {
        c.new.is_some() && held_faulty(c)
    }),
    ("add: new bytes faulty, priority held", |c| {
        c.at_new() && c.place.is_some()
    }),
    ("add: new bytes faulty, no room", |c| {
        c.at_new() && !c.has_room()
    }),
    ("add: priority held, no room", |c| {
        c.at_count(Cause::Priority) && !c.has_room()
    }),
    ("remove: accepted", |c| !c.adds && c.answer.is_ok()),
    ("remove: the only one", |c| !c.adds && c.answer == Ok(0)),
    ("remove: the first of several", |c| {
        removes(c) && c.count > 1 && c.place == Some(0)
    }),
    ("remove: one between", |c| {
        removes(c) && c.place.is_some_and(|at| 0 < at && at + 1 < c.count)
    }),
    ("remove: the last of several", |c| {
        removes(c) && c.count > 1 && c.place == Some(c.count - 1)
    }),
    ("remove: one of 256", |c| removes(c) && c.count == MOST),
    ("remove: 3, more than 256", |c| !c.adds && over(c)),
    ("remove: 3, a count that wraps", |c| !c.adds && wraps(c)),
    ("remove: 3, buffer too short", |c| !c.adds && short(c)),
    ("remove: 3, one byte wanting", |c| !c.adds && one_short(c)),
    ("remove: 4", |c| !c.adds && c.held(Cause::Check)),
    ("remove: 5", |c| !c.adds && c.held(Cause::Form)),
    ("remove: 6", |c| !c.adds && c.held(Cause::Float)),
    ("remove: 7", |c| !c.adds && c.held(Cause::Integer)),
    ("remove: 15", |c| !c.adds && c.held(Cause::Bend)),
    ("remove: 15, 4 to 7 of a later block", |c| {
        !c.adds && torn_before(c)
    }),
    ("remove: 15, a priority twice", |c| {
        !c.adds && c.held(Cause::Bend) && c.twice
    }),
    ("remove: 15, and its priority absent", |c| {
        !c.adds && c.held(Cause::Bend) && c.place.is_none()
    }),
    ("remove: 15 of the block that is to go", |c| {
        let at = c.place;
        !c.adds && c.held(Cause::Bend) && at == c.answer.err().map(|(_, at)| at)
    }),
    ("remove: 8", |c| !c.adds && c.held(Cause::Priority)),
    ("remove: 8, and its priority absent", |c| {
        !c.adds && c.held(Cause::Priority) && c.place.is_none()
    }),
    ("remove: 13", |c| c.answer == Err((Cause::Absent, 0))),
    ("remove: 13, nothing is held", |c| {
        c.answer == Err((Cause::Absent, 0)) && c.count == 0
    }),
    ("add: below all others", |c| {
        added(c) && c.count > 0 && c.rank == 0
    }),
    ("add: between others", |c| {
        added(c) && 0 < c.rank && c.rank < c.count
    }),
    ("add: above all others", |c| {
        added(c) && c.count > 0 && c.rank == c.count
    }),
    ("add: to unordered blocks", |c| added(c) && c.unordered()),
    ("add: to unordered blocks, below all", |c| {
        added(c) && c.unordered() && c.rank == 0
    }),
    ("add: to unordered blocks, above all", |c| {
        added(c) && c.unordered() && c.rank == c.count
    }),
    ("add: to reversed blocks", |c| added(c) && reversed(c)),
    ("add: to 255, unordered", |c| {
        added(c) && c.count == MOST - 1 && c.unordered()
    }),
    ("add: to 255, reversed", |c| {
        added(c) && c.count == MOST - 1 && reversed(c)
    }),
    ("add: unordered, 3", |c| {
        c.adds && c.unordered() && rundown(c)
    }),
    ("add: unordered, 4 of a held block", |c| {
        c.adds && refuses_held(c, Cause::Check)
    }),
    ("add: unordered, 5 of a held block", |c| {
        c.adds && refuses_held(c, Cause::Form)
    }),
    ("add: unordered, 6 of a held block", |c| {
        c.adds && refuses_held(c, Cause::Float)
    }),
    ("add: unordered, 7 of a held block", |c| {
        c.adds && refuses_held(c, Cause::Integer)
    }),
    ("add: unordered, 15 of a held block", |c| {
        c.adds && refuses_held(c, Cause::Bend)
    }),
    ("add: unordered, 8 of a held block", |c| {
        c.adds && refuses_held(c, Cause::Priority)
    }),
    ("add: unordered, 5 of the new bytes", |c| {
        refuses_new(c, Cause::Form)
    }),
    ("add: unordered, 6 of the new bytes", |c| {
        refuses_new(c, Cause::Float)
    }),
    ("add: unordered, 7 of the new bytes", |c| {
        refuses_new(c, Cause::Integer)
    }),
    ("add: unordered, 15 of the new bytes", |c| {
        refuses_new(c, Cause::Bend)
    }),
    ("add: unordered, 8 of the new bytes", |c| {
        refuses_new(c, Cause::Priority)
    }),
    ("add: unordered, 12", |c| refuses_new(c, Cause::Room)),
    ("add: unordered, 12, 256 are held", |c| {
        refuses_new(c, Cause::Room) && c.count == MOST
    }),
    ("add: leaves another order than that of texts", |c| {
        c.adds && differs_by(c, |p| p.to_string())
    }),
    ("add: leaves another order than that of low bytes", |c| {
        c.adds && differs_by(c, |p| p as u8)
    }),
    (
        "add: leaves another order than that of signed numbers",
        |c| c.adds && differs_by(c, |p| p as i16),
    ),
    ("add: back what was removed, ascending before", |c| {
        c.adds && c.back == Some(Order::Ascending)
    }),
    ("add: back what was removed, unordered before", |c| {
        c.adds && back_to_order(c)
    }),
    ("add: back what was removed, the 256th", |c| {
        c.adds && c.back.is_some() && c.answer == Ok(MOST)
    }),
    ("remove: the lowest of several", |c| {
        removes(c) && c.count > 1 && c.rank == 0
    }),
    (
        "remove: one that is neither the lowest nor the highest",
        |c| removes(c) && 0 < c.rank && c.rank + 1 < c.count,
    ),
    ("remove: the highest of several", |c| {
        removes(c) && c.count > 1 && c.rank + 1 == c.count
    }),
    ("remove: from unordered blocks", |c| {
        removes(c) && c.unordered()
    }),
    ("remove: from unordered blocks, the first", |c| {
        removes(c) && c.unordered() && c.place == Some(0)
    }),
    ("remove: from unordered blocks, the last", |c| {
        removes(c) && c.unordered() && c.place == Some(c.count - 1)
    }),
    ("remove: from reversed blocks", |c| {
        removes(c) && reversed(c)
    }),
    ("remove: from 255, unordered", |c| {
        removes(c) && c.count == MOST - 1 && c.unordered()
    }),
    ("remove: from 256, unordered", |c| {
        removes(c) && c.count == MOST && c.unordered()
    }),
    ("remove: from 256, reversed", |c| {
        removes(c) && c.count == MOST && reversed(c)
    }),
    ("remove: unordered, 3", |c| {
        !c.adds && c.unordered() && rundown(c)
    }),
    ("remove: unordered, 4", |c| {
        !c.adds && refuses_held(c, Cause::Check)
    }),
    ("remove: unordered, 5", |c| {
        !c.adds && refuses_held(c, Cause::Form)
    }),
    ("remove: unordered, 6", |c| {
        !c.adds && refuses_held(c, Cause::Float)
    }),
    ("remove: unordered, 7", |c| {
        !c.adds && refuses_held(c, Cause::Integer)
    }),
    ("remove: unordered, 15", |c| {
        !c.adds && refuses_held(c, Cause::Bend)
    }),
    ("remove: unordered, 8", |c| {
        !c.adds && refuses_held(c, Cause::Priority)
    }),
    ("remove: unordered, 13", |c| {
        c.unordered() && c.answer == Err((Cause::Absent, 0))
    }),
    ("remove: leaves another order than that of texts", |c| {
        !c.adds && differs_by(c, |p| p.to_string())
    }),
    ("remove: leaves another order than that of low bytes", |c| {
        !c.adds && differs_by(c, |p| p as u8)
    }),
    (
        "remove: leaves another order than that of signed numbers",
        |c| !c.adds && differs_by(c, |p| p as i16),
    ),
    ("remove: again what was added, ascending before", |c| {
        !c.adds && c.back == Some(Order::Ascending)
    }),
    ("remove: again what was added, unordered before", |c| {
        !c.adds && back_to_order(c)
    }),
    ("remove: again what was added, of 256", |c| {
        !c.adds && c.back.is_some() && c.count == MOST
    }),
    ("no byte is lent", |c| c.len == 0),
    ("511 bytes are lent", |c| c.len == BLOCK - 1),
    ("256 blocks' bytes are lent", |c| c.len == MOST * BLOCK),
    ("more than 256 blocks' bytes are lent", |c| {
        c.len > MOST * BLOCK
    }),
];

fn rundown(c: &Call) -> bool {
    c.answer == Err((Cause::Rundown, 0))
}

fn over(c: &Call) -> bool {
    rundown(c) && c.count == MOST + 1
}

/// 512 × count would be small if it wrapped.
fn wraps(c: &Call) -> bool {
    rundown(c) && c.count > MOST && c.count.wrapping_mul(BLOCK) <= c.len
}

fn short(c: &Call) -> bool {
    rundown(c) && c.count <= MOST
}

fn one_short(c: &Call) -> bool {
    short(c) && c.len + 1 == c.count * BLOCK
}

fn held_faulty(c: &Call) -> bool {
    c.answer.is_err_and(|(_, at)| at < c.count) && !rundown(c)
}

fn added(c: &Call) -> bool {
    c.adds && c.answer.is_ok()
}

fn removes(c: &Call) -> bool {
    !c.adds && c.answer.is_ok()
}

fn reversed(c: &Call) -> bool {
    c.order == Order::Reversed
}

fn refuses_held(c: &Call, cause: Cause) -> bool {
    c.unordered() && c.held(cause)
}

fn refuses_new(c: &Call, cause: Cause) -> bool {
    c.unordered() && c.at_count(cause)
}

/// The blocks left stand in another order than by this of their priorities.
fn differs_by<K: PartialOrd>(c: &Call, key: fn(u16) -> K) -> bool {
    !c.left.is_sorted_by_key(|p| key(*p))
}

/// Takes a call back that found unordered blocks.
fn back_to_order(c: &Call) -> bool {
    c.back.is_some_and(|order| order != Order::Ascending)
}

/// A held block is refused by 15, although a later one has a cause of a lower number.
fn torn_before(c: &Call) -> bool {
    c.held(Cause::Bend) && c.later.is_some_and(|cause| cause < Cause::Bend)
}
