//! Asks both sides, and compares what they answer and leave.
use crate::call::Call;
use crate::classes::CALLS;
use crate::shown::broken;
use common::draw::Draw;
use common::lend::{guarded, inner, Lent, GUARD_BYTE};
use common::sorts::Tally;
use common::Sum;
use ours::surface;
use reading::{packed, BLOCK};

/// Pixels up to which a block is painted, and up to which one is now and then.
const SMALL: usize = 64 * 64;
const LARGER: usize = 512 * 512;

pub struct Asked {
    pub call: Call,
    /// Whether the block is played with just enough scratch, too, and not only with a byte too little.
    pub painted: bool,
}

impl Asked {
    /// Call number i.
    pub fn of(seed: u64, i: u64) -> Asked {
        let call = Call::of(seed, i);
        let most = if i.is_multiple_of(512) { LARGER } else { SMALL };
        let painted = call.answer.is_ok() && call.pixels() <= most;
        Asked { call, painted }
    }
}

/// Calls by what users may rest on, and, apart from that, the blocks beside the one that our contract names.
#[derive(Default)]
pub struct Counts {
    pub calls: Tally,
    pub blocks: Tally,
}

impl Sum for Counts {
    fn add(&mut self, other: Counts) {
        self.calls.add(other.calls);
        self.blocks.add(other.blocks);
    }
}

pub fn check(asked: &Asked, draw: &mut Draw, lent: Lent, counts: &mut Counts) {
    let call = &asked.call;
    counts.calls.count(asked, CALLS, call.answer.is_ok());
    let mut bytes = guarded(lent, GUARD_BYTE, &call.before);
    let block: &mut [u8; BLOCK] = inner(&mut bytes, lent).try_into().expect("512 bytes");
    let ours = surface::dearest(call.width, call.height, call.blur, block);
    let block = *block;
    let guards = bytes == guarded(lent, GUARD_BYTE, &block);
    let wrong = (!guards).then(|| "a byte beside the block changed".into());
    let wrong = wrong.or_else(|| match (ours == packed(call.answer), call.answer) {
        (false, _) => Some(format!("the answer is {ours:X}")),
        (_, Err(_)) => (block != call.before).then(|| "a refusal changes the bytes".into()),
        (_, Ok(need)) => broken(asked, &block, need, draw, lent),
    });
    if let Some(what) = wrong {
        counts.calls.differs(|| format!("{what}: {}", tell(call)));
    }
    counts.blocks.cases += 1;
    if block != call.after {
        counts.blocks.differs(|| {
            let at = (0..BLOCK).find(|i| block[*i] != call.after[*i]);
            format!("byte {at:?} is another: {}", tell(call))
        });
    }
}

/// The call in words.
fn tell(call: &Call) -> String {
    let (w, h, bits) = (call.width, call.height, call.blur.to_bits());
    format!("{w} by {h}, blur {bits:08X}: the reading {:?}", call.answer)
}
