//! One block at any place of a buffer, judged by both sides where it lies: whatever stands before and
//! behind it, it has one answer.
use crate::one::{in_c, Case};
use common::draw::Draw;
use common::layers::draw::{checked, pick, valid, NANS};
use common::layers::faults::Fault;
use common::layers::fields::Form;
use common::sorts::{Class, Tally};
use reading::{judge, Cause, BLOCK, BODY};

/// What stands on one side of a block.
#[derive(Clone, Copy, PartialEq, Eq, Debug)]
pub enum Filling {
    /// Blocks that pass, the nearest one side by side with it.
    Blocks,
    Nans,
    /// FF in every byte.
    Ones,
    Random,
}

const FILLINGS: [Filling; 4] = [
    Filling::Blocks,
    Filling::Nans,
    Filling::Ones,
    Filling::Random,
];

impl Filling {
    /// A block's bytes of it.
    fn block(self, draw: &mut Draw) -> [u8; BLOCK] {
        match self {
            Filling::Blocks => {
                let form = Form::draw(draw);
                checked(&valid(draw, form))
            }
            Filling::Nans => {
                let nan = pick(draw, &NANS).to_le_bytes();
                std::array::from_fn(|i| nan[i % 4])
            }
            Filling::Ones => [0xFF; BLOCK],
            Filling::Random => std::array::from_fn(|_| draw.byte()),
        }
    }

    /// So many bytes at least, in whole blocks.
    fn bytes(self, draw: &mut Draw, least: usize) -> Vec<u8> {
        let blocks = 0..least.div_ceil(BLOCK);
        blocks.flat_map(|_| self.block(draw)).collect()
    }
}

/// Where a block stands: what is before and behind it, and how many bytes of that.
#[derive(Clone, Copy, Debug)]
pub struct Around {
    pub before: (Filling, usize),
    pub behind: (Filling, usize),
    /// How many bytes are cut off the block's end, behind which nothing stands then.
    pub cut: usize,
}

impl Around {
    fn draw(draw: &mut Draw) -> Around {
        let any = draw.below(1200) as usize;
        let odd = 2 * draw.below(600) as usize + 1;
        let before = pick(draw, &[0, 1, 511, 512, 512, 513, 1024, odd, any]);
        let behind = pick(draw, &[0, 0, 1, 4, 508, 512, 512, 513, 1024, any]);
        let cut = match draw.below(12) {
            0 => pick(draw, &[1, 1, 1, 4, 5, 511, 512]),
            _ => 0,
        };
        Around {
            before: (pick(draw, &FILLINGS), before),
            behind: (pick(draw, &FILLINGS), if cut > 0 { 0 } else { behind }),
            cut,
        }
    }

    /// Surroundings that have nothing in common with these.
    fn other(&self, draw: &mut Draw) -> Around {
        loop {
            let other = Around::draw(draw);
            let apart = |a: (Filling, usize), b: (Filling, usize)| a.0 != b.0 && a.1 != b.1;
            let sides = apart(self.before, other.before) && apart(self.behind, other.behind);
            if sides && self.len() != other.len() {
                return other;
            }
        }
    }

    /// The block's place.
    pub fn at(&self) -> usize {
        self.before.1
    }

    /// The buffer's length.
    pub fn len(&self) -> usize {
        self.before.1 + BLOCK + self.behind.1 - self.cut
    }

    /// The block with all that stands around it, in an allocation of just its length.
    fn buffer(&self, draw: &mut Draw, block: &[u8; BLOCK]) -> Box<[u8]> {
        let ((before, n), (behind, m)) = (self.before, self.behind);
        let (front, back) = (before.bytes(draw, n), behind.bytes(draw, m));
        let near = &front[front.len() - n..];
        let mut bytes = [near, block, &back[..m]].concat();
        bytes.truncate(self.len());
        bytes.into_boxed_slice()
    }
}

/// A block in a buffer, the place that is asked for, and what the reading answers there.
pub struct Placed {
    pub case: Case,
    /// The bit that alone is wrong in the block.
    pub bit: Option<usize>,
    pub around: Around,
    /// Where the same block stood before.
    pub earlier: Option<Around>,
    pub buffer: Box<[u8]>,
    pub at: usize,
    pub answer: Result<(), Cause>,
}

impl Placed {
    /// A block as those that are judged alone, often one that passes, or one with a single wrong bit.
    fn draw(draw: &mut Draw) -> Placed {
        let (case, bit) = match draw.below(8) {
            0 => {
                let (any, last) = (draw.below(8 * BLOCK as u64), draw.below(32));
                let bit = pick(draw, &[any, any, any, 8 * BODY as u64 + last]) as usize;
                (with_bit(draw, bit), Some(bit))
            }
            1..=2 => {
                let form = Form::draw(draw);
                (Case::faulty(draw, form, 0), None)
            }
            _ => (Case::draw(draw), None),
        };
        let around = Around::draw(draw);
        let buffer = around.buffer(draw, &case.block);
        let answer = read(&buffer, around.at());
        Placed {
            at: around.at(),
            answer,
            case,
            bit,
            around,
            earlier: None,
            buffer,
        }
    }

    /// Puts the same block into other surroundings.
    fn move_on(&mut self, draw: &mut Draw) {
        let other = self.around.other(draw);
        self.buffer = other.buffer(draw, &self.case.block);
        self.earlier = Some(std::mem::replace(&mut self.around, other));
        self.look_at(other.at());
    }

    fn look_at(&mut self, at: usize) {
        self.at = at;
        self.answer = read(&self.buffer, at);
    }

    /// A place that is mostly not the block's: near it, at the buffer's end and beyond, or near 2^64.
    fn elsewhere(&self, draw: &mut Draw) -> usize {
        let (own, len) = (self.around.at(), self.buffer.len());
        match draw.below(12) {
            0 => own.wrapping_sub(1),
            1 => own + 1,
            2 => own.wrapping_sub(BLOCK),
            3 => own + BLOCK,
            4 => len.wrapping_sub(BLOCK),
            5 => len.wrapping_sub(BLOCK - 1),
            6 => len,
            7 => len + pick(draw, &[1, 1, BLOCK, 4096, 1 << 20]),
            // the block's own, were it cut to fewer bits
            8 => own + (1 << pick(draw, &[16, 32, 63])),
            9 => {
                let any = draw.below(BLOCK as u64) as usize;
                usize::MAX - pick(draw, &[0, BLOCK - 1, BLOCK, any])
            }
            _ => draw.below(len as u64 + 1) as usize,
        }
    }

    /// Whether the block is asked for at its own place, and lies there whole.
    pub fn is_own(&self) -> bool {
        self.at == self.around.at() && self.around.cut == 0
    }

    /// What is known beforehand at the block's own place: the answer that it has alone, by its faults
    /// where it was made with some. Where its end is cut off there is no kind.
    fn known(&self) -> Option<Result<(), Cause>> {
        let alone = self.case.known().unwrap_or(self.case.answer);
        let cut = self.around.cut > 0;
        let own = if cut { Err(Cause::Form) } else { alone };
        (self.at == self.around.at()).then_some(own)
    }
}

/// A block that passes, with this bit changed: its check is wrong then, whichever it is.
fn with_bit(draw: &mut Draw, bit: usize) -> Case {
    let form = Form::draw(draw);
    let mut block = checked(&valid(draw, form));
    block[bit / 8] ^= 1 << (bit % 8);
    Case::of(form, block, Some(vec![Fault::Check]))
}

/// What the reading answers at a place: the bytes are cut out and judged alone. A block that does not lie
/// in the buffer whole has no kind.
fn read(buffer: &[u8], at: usize) -> Result<(), Cause> {
    let end = at.checked_add(BLOCK);
    let bytes = end.and_then(|end| buffer.get(at..end));
    let block = bytes.and_then(|bytes| bytes.first_chunk());
    block.map_or(Err(Cause::Form), judge)
}

/// A block in two surroundings, each time asked for at its own place and at another.
pub fn sequence(draw: &mut Draw, mut ask: impl FnMut(&Placed)) {
    let mut placed = Placed::draw(draw);
    for again in [false, true] {
        if again {
            placed.move_on(draw);
        }
        ask(&placed);
        placed.look_at(placed.elsewhere(draw));
        ask(&placed);
    }
}

/// Asks both sides. The reading itself is held to what is known of the block where it stands alone: so
/// both have one answer in both surroundings.
pub fn check(placed: &Placed, tally: &mut Tally, classes: &[Class<Placed>]) {
    tally.count(placed, classes, placed.answer.is_ok());
    let ours = ours::blocks::judge_at(&placed.buffer, placed.at);
    let unexpected = placed.known().is_some_and(|known| known != placed.answer);
    if ours != in_c(placed.answer) || unexpected {
        tally.differs(|| {
            format!(
                "{} with {:?} in {:?}, asked for at {}: ours {ours:X}, the reading {:?}: {:02X?}",
                placed.case.form.name,
                placed.case.faults,
                placed.around,
                placed.at,
                placed.answer,
                placed.buffer
            )
        });
    }
}
