//! Adding and removing, one after the other, on buffers of all sorts of lengths.
use crate::one::Case;
use crate::rundown::{priority_in, torn, Order, Rundown};
use common::draw::Draw;
use common::layers::draw::{pick, priority, valid};
use common::layers::fields::{Form, PRIORITY};
use common::sorts::{Class, Tally};
use reading::{packed, Answer, Body, Cause, BLOCK, MOST};

/// What is asked for.
#[derive(Clone, Debug)]
pub enum Act {
    Add(Box<Body>),
    Remove(u16),
}

/// One call that is to be made.
pub struct Step {
    pub act: Act,
    /// The count that is handed in.
    pub count: usize,
    back: Option<Back>,
}

/// What a call that takes the one before it back has to restore.
struct Back {
    /// How the blocks stood before both.
    order: Order,
    /// These blocks: as they stood, or in ascending priority where they did not.
    front: Vec<[u8; BLOCK]>,
}

/// One call, and what the reading answers.
pub struct Call {
    /// Whether it adds; else it removes.
    pub adds: bool,
    /// The count that was handed in, and the buffer's length.
    pub count: usize,
    pub len: usize,
    pub answer: Answer,
    /// What the new bytes are refused for, where they are.
    pub new: Option<Cause>,
    /// The place of the first block whose priority is the one that is added or removed.
    pub place: Option<usize>,
    /// How many blocks have a lower one.
    pub rank: usize,
    /// Where a held block is refused, the cause of one behind it.
    pub later: Option<Cause>,
    /// Whether two of the blocks that are held have one priority.
    pub twice: bool,
    /// How the blocks came in.
    pub order: Order,
    /// Where the call takes the one before it back: how the blocks had come in there.
    pub back: Option<Order>,
    /// The priorities that an accepted call leaves, ascending.
    pub left: Vec<u16>,
}

/// What is asked for next.
fn act(draw: &mut Draw, rundown: &Rundown) -> Act {
    let form = Form::draw(draw);
    let held = |draw: &mut Draw| {
        let n = rundown.count as u64;
        (n > 0).then(|| rundown.priority_of(draw.below(n) as usize))
    };
    match draw.below(10) {
        0..=4 => {
            let mut body = valid(draw, form);
            rundown.renumber(draw, &mut body);
            Act::Add(Box::new(body))
        }
        5..=6 => {
            // a fault, a priority that is held, or both
            let kind = draw.below(3);
            let block = match draw.below(8) {
                _ if kind == 0 => Case::faulty(draw, form, 0).block,
                0 => torn(draw, 0),
                n => Case::faulty(draw, form, 1 + n as usize % 2).block,
            };
            let mut body = *block.first_chunk().expect("a block has a body");
            match held(draw) {
                Some(p) if kind < 2 => {
                    body[PRIORITY..PRIORITY + 2].copy_from_slice(&p.to_le_bytes());
                }
                _ => rundown.renumber(draw, &mut body),
            }
            Act::Add(Box::new(body))
        }
        7..=8 => {
            let p = held(draw).unwrap_or_else(|| priority(draw));
            Act::Remove(p)
        }
        _ => Act::Remove(rundown.absent(draw)),
    }
}

/// The count that is handed in: now and then a wrong one.
fn claimed(draw: &mut Draw, count: usize) -> usize {
    match draw.below(24) {
        0 => pick(draw, &[257, 258, 512, 1 << 55, (1 << 55) + 1, usize::MAX]),
        1 => count + 1,
        2 => count.saturating_sub(1),
        3 => count + draw.below(300) as usize,
        _ => count,
    }
}

/// Some calls one after another, each on what the one before left, or on that in another order. Some accepted ones
/// are taken back at once.
pub fn sequence(
    draw: &mut Draw,
    mut rundown: Rundown,
    mut ask: impl FnMut(&mut Rundown, &Step) -> Answer,
) {
    for _ in 0..1 + draw.below(10) {
        let act = act(draw, &rundown);
        let kept = rundown.bytes.clone();
        rundown.disarrange(draw);
        if draw.below(5) == 0 {
            rundown.spoil(draw);
        }
        let step = Step {
            act,
            count: claimed(draw, rundown.count),
            back: None,
        };
        let back = match draw.below(3) {
            0 => step.back(&rundown),
            _ => None,
        };
        let Ok(count) = ask(&mut rundown, &step) else {
            // a spoilt block would refuse every later call
            rundown.bytes = kept;
            continue;
        };
        rundown.count = count;
        let back = back.and_then(|back| ask(&mut rundown, &back).ok());
        rundown.count = back.unwrap_or(count);
    }
}

impl Step {
    /// The call that takes this one back once it is accepted.
    fn back(&self, rundown: &Rundown) -> Option<Step> {
        let held = rundown.lent().as_chunks().0.get(..self.count)?;
        let (act, count) = match &self.act {
            Act::Add(new) => (Act::Remove(reading::priority_of(new)), self.count + 1),
            Act::Remove(p) => {
                let gone = held.iter().find(|b| priority_in(b) == *p)?;
                let body = gone.first_chunk().expect("a block has a body");
                (Act::Add(Box::new(*body)), self.count - 1)
            }
        };
        let order = Order::of(held);
        let mut front = held.to_vec();
        if order != Order::Ascending {
            front.sort_by_key(priority_in);
        }
        let back = Some(Back { order, front });
        Some(Step { act, count, back })
    }

    /// Whether a call that takes another back was accepted and has restored the blocks, in their order.
    fn restores(&self, lent: &[u8], answer: Answer) -> bool {
        self.back.as_ref().is_none_or(|back| {
            answer == Ok(back.front.len()) && lent.starts_with(back.front.as_flattened())
        })
    }
}

impl Act {
    /// What the reading answers, and makes of the buffer.
    pub fn read(&self, buffer: &mut [u8], count: usize) -> Answer {
        match self {
            Act::Add(new) => reading::add(buffer, count, new),
            Act::Remove(p) => reading::remove(buffer, count, *p),
        }
    }

    fn ours(&self, buffer: &mut [u8], count: usize) -> u64 {
        match self {
            Act::Add(new) => ours::surface::add(buffer, count, new),
            Act::Remove(p) => ours::surface::remove(buffer, count, *p),
        }
    }
}

/// Asks both sides, and compares what they answer and leave.
pub fn check(
    rundown: &mut Rundown,
    step: &Step,
    tally: &mut Tally,
    classes: &[Class<Call>],
) -> Answer {
    let before = rundown.bytes.clone();
    let mut theirs = rundown.lent().to_vec();
    let answer = step.act.read(&mut theirs, step.count);
    tally.count(&Call::new(step, rundown, answer), classes, answer.is_ok());
    let ours = step.act.ours(rundown.lent_mut(), step.count);
    let same = same_bytes(rundown, &before, &theirs, answer);
    if ours != packed(answer) || !same || !step.restores(rundown.lent(), answer) {
        tally.differs(|| {
            let apart = rundown.lent().iter().zip(&theirs).position(|(a, b)| a != b);
            format!(
                "{:02X?} with count {}, {} bytes: ours {ours:X}, the reading {answer:?}; the first byte that they left apart {apart:?}",
                step.act, step.count, rundown.len
            )
        });
    }
    answer
}

/// Whether both sides left what they have to: on a refusal every byte, else the same blocks at the same places.
/// Bytes past the last block are free, and ours are looked at before and behind the buffer, too.
fn same_bytes(rundown: &Rundown, before: &[u8], theirs: &[u8], answer: Answer) -> bool {
    let start = rundown.guard;
    let end = start + rundown.len;
    let Ok(count) = answer else {
        return rundown.bytes == before && *theirs == before[start..end];
    };
    let guards = rundown.bytes[..start] == before[..start] && rundown.bytes[end..] == before[end..];
    let front = ..count * BLOCK;
    guards && rundown.lent()[front] == theirs[front]
}

/// The priorities of the blocks after this one was added or removed, ascending.
fn left(held: &[[u8; BLOCK]], adds: bool, priority: u16) -> Vec<u16> {
    let others = held.iter().map(priority_in).filter(|p| *p != priority);
    let mut left: Vec<u16> = others.chain(adds.then_some(priority)).collect();
    left.sort_unstable();
    left
}

fn has_twice(blocks: &[[u8; BLOCK]]) -> bool {
    let mut all: Vec<u16> = blocks.iter().map(priority_in).collect();
    all.sort_unstable();
    all.windows(2).any(|pair| pair[0] == pair[1])
}

impl Call {
    /// On the rundown as it was before.
    pub fn new(step: &Step, rundown: &Rundown, answer: Answer) -> Call {
        let (priority, new) = match &step.act {
            Act::Add(new) => (reading::priority_of(new), reading::judge_body(new).err()),
            Act::Remove(p) => (*p, None),
        };
        let adds = matches!(step.act, Act::Add(_));
        let blocks = rundown.lent().as_chunks::<BLOCK>().0;
        let held = &blocks[..step.count.min(blocks.len())];
        let behind = answer.err().map_or(held.len(), |(_, at)| at + 1);
        Call {
            adds,
            count: step.count,
            len: rundown.len,
            answer,
            new,
            place: held.iter().position(|b| priority_in(b) == priority),
            rank: held.iter().filter(|b| priority_in(b) < priority).count(),
            later: held
                .iter()
                .skip(behind)
                .find_map(|b| reading::judge(b).err()),
            twice: has_twice(held),
            // where the count is wrong the bytes behind the last block say nothing
            order: Order::of(&held[..held.len().min(rundown.count)]),
            back: step.back.as_ref().map(|back| back.order),
            left: answer.map_or(Vec::new(), |_| left(held, adds, priority)),
        }
    }

    /// Refused for a block that is held.
    pub fn held(&self, cause: Cause) -> bool {
        self.answer
            .is_err_and(|(c, at)| c == cause && at < self.count)
    }

    /// Refused for the new bytes, or for want of room.
    pub fn at_count(&self, cause: Cause) -> bool {
        self.adds && self.answer == Err((cause, self.count))
    }

    /// Refused for a fault of the new bytes.
    pub fn at_new(&self) -> bool {
        self.new.is_some_and(|cause| self.at_count(cause))
    }

    /// On blocks that stood in another order than the ascending one.
    pub fn unordered(&self) -> bool {
        self.order != Order::Ascending
    }

    pub fn has_room(&self) -> bool {
        self.count < MOST && self.len >= (self.count + 1) * BLOCK
    }
}
