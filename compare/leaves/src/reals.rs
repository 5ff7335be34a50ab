//! mathf.
use crate::tally::{over, Answer, Tally};
use crate::{Plan, Report};
use common::draw::{choices, floats, pattern, Draw, PATTERNS};
use kash::mathf;

pub fn compare(plan: &Plan, report: &mut Report) {
    report.line("floor", every(plan, |x| ours::floor(x), mathf::floor));
    report.line("ceil", every(plan, |x| ours::ceil(x), mathf::ceil));
    report.line("sqrt", every(plan, |x| ours::sqrt(x), mathf::sqrt));
    report.line("to_i32", every(plan, |x| ours::to_i32(x), |x| x as i32));
    report.line("to_u32", every(plan, |x| ours::to_u32(x), |x| x as u32));
    report.line("to_u8", every(plan, |x| ours::to_u8(x), |x| x as u8));
    report.line("fabs", every(plan, |x| ours::fabs(x), mathf::fabs));
    report.line(
        "saturate",
        every(plan, |x| ours::saturate(x), mathf::saturate),
    );
    report.line(
        "of_i32",
        whole(plan, |n| ours::of_i32(n as i32), |n| n as i32 as f32),
    );
    report.line("of_u32", whole(plan, |n| ours::of_u32(n), |n| n as f32));
    report.line("min", either_zero(plan, |a, b| ours::min(a, b), f32::min));
    report.line("max", either_zero(plan, |a, b| ours::max(a, b), f32::max));
    report.line(
        "clamp",
        three(plan, |x, lo, hi| ours::clamp(x, lo, hi), mathf::clamp),
    );
    report.line(
        "lerp",
        three(plan, |a, b, t| ours::lerp(a, b, t), mathf::lerp),
    );
}

/// A function of one float: every bit pattern, or the edges and some at random.
fn every<A: Answer>(
    plan: &Plan,
    ours: impl Fn(f32) -> A + Sync,
    rust: impl Fn(f32) -> A + Sync,
) -> Tally {
    let check = |x: f32, tally: &mut Tally| tally.check(ours(x), rust(x), x);
    if plan.all {
        over(1 << 32, |i, tally| check(f32::from_bits(i as u32), tally))
    } else {
        over(PATTERNS + plan.bulk, |i, tally| {
            check(pattern(plan.seed, i), tally)
        })
    }
}

/// A function of a whole number, given as a word: both sides of 0, of each power of two and of the
/// greatest, then random ones.
fn whole<A: Answer>(
    plan: &Plan,
    ours: impl Fn(u32) -> A + Sync,
    rust: impl Fn(u32) -> A + Sync,
) -> Tally {
    const NEAR_ZERO: u64 = 1 << 18;
    const NEAR_POWER: u64 = 1 << 12;
    const SURE: u64 = NEAR_ZERO + 64 * NEAR_POWER;
    over(SURE + plan.bulk, |i, tally| {
        let n = if i < NEAR_ZERO {
            (i as u32).wrapping_sub(NEAR_ZERO as u32 / 2)
        } else if i < SURE {
            let k = i - NEAR_ZERO;
            let power = 1u32 << (k / NEAR_POWER % 32);
            let near = power
                .wrapping_add((k % NEAR_POWER) as u32)
                .wrapping_sub(NEAR_POWER as u32 / 2);
            if k / NEAR_POWER < 32 {
                near
            } else {
                near.wrapping_neg()
            }
        } else {
            let mut draw = Draw::new(plan.seed, i);
            (draw.bits() as u32) >> draw.below(32)
        };
        tally.check(ours(n), rust(n), n);
    })
}

/// min and max: of two zeros of unlike sign Rust may give either.
fn either_zero(
    plan: &Plan,
    ours: impl Fn(f32, f32) -> f32 + Sync,
    rust: impl Fn(f32, f32) -> f32 + Sync,
) -> Tally {
    over(choices::<2>() + plan.bulk, |i, tally| {
        let [a, b] = floats(plan.seed, i);
        let open = a == 0.0 && b == 0.0 && a.to_bits() != b.to_bits();
        tally.open += open as u64;
        tally.check(zero_if(open, ours(a, b)), zero_if(open, rust(a, b)), (a, b));
    })
}

/// x, but 0 for -0 where its sign is left open.
pub fn zero_if(open: bool, x: f32) -> f32 {
    if open && x == 0.0 {
        0.0
    } else {
        x
    }
}

fn three(
    plan: &Plan,
    ours: impl Fn(f32, f32, f32) -> f32 + Sync,
    rust: impl Fn(f32, f32, f32) -> f32 + Sync,
) -> Tally {
    over(choices::<3>() + plan.bulk, |i, tally| {
        let [a, b, c] = floats(plan.seed, i);
        tally.check(ours(a, b, c), rust(a, b, c), (a, b, c));
    })
}
