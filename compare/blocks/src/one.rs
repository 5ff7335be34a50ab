//! One block, judged by both sides.
use common::draw::Draw;
use common::layers::draw::{checked, valid};
use common::layers::faults::{spoilt_check, Fault};
use common::layers::fields::{Form, FORMS};
use common::sorts::{Class, Tally};
use reading::{judge, packed, Cause, BLOCK, BODY};

/// A block and what is known of it beforehand.
pub struct Case {
    pub form: &'static Form,
    pub block: [u8; BLOCK],
    /// None where bytes were changed at random: then the reading alone knows the cause.
    pub faults: Option<Vec<Fault>>,
    pub answer: Result<(), Cause>,
}

impl Case {
    /// With no, one or two faults, or with bytes changed at random.
    pub fn draw(draw: &mut Draw) -> Case {
        let form = Form::draw(draw);
        match draw.below(8) {
            0..=1 => Case::faulty(draw, form, 0),
            2..=3 => Case::faulty(draw, form, 1),
            4..=6 => Case::faulty(draw, form, 2),
            _ => Case::damaged(draw, form),
        }
    }

    pub fn faulty(draw: &mut Draw, form: &'static Form, faults: usize) -> Case {
        let mut body = valid(draw, form);
        let mut put = Vec::with_capacity(faults);
        for _ in 0..faults {
            let fault = Fault::draw(draw, form, &body);
            fault.put(draw, form, &mut body);
            put.push(fault);
        }
        let block = if put.contains(&Fault::Check) {
            spoilt_check(draw, &body)
        } else {
            checked(&body)
        };
        Case::of(form, block, Some(put))
    }

    /// Bytes changed anywhere, another kind or nothing but random bytes; the check mostly right.
    fn damaged(draw: &mut Draw, form: &'static Form) -> Case {
        let mut body = valid(draw, form);
        match draw.below(8) {
            0 => body.fill_with(|| draw.bits() as u8),
            1 => body[0] = draw.below(10) as u8,
            2 => body[29] = draw.below(5) as u8,
            _ => {
                for _ in 0..=draw.below(3) {
                    body[draw.below(BODY as u64) as usize] = draw.byte();
                }
            }
        }
        let mut block = checked(&body);
        if draw.below(8) == 0 {
            block[draw.below(BLOCK as u64) as usize] ^= 1 << draw.below(8);
        }
        Case::of(form, block, None)
    }

    pub fn of(form: &'static Form, block: [u8; BLOCK], faults: Option<Vec<Fault>>) -> Case {
        Case {
            form,
            block,
            faults,
            answer: judge(&block),
        }
    }

    /// What the faults that were put in are refused for: the first of their causes.
    pub fn known(&self) -> Option<Result<(), Cause>> {
        let causes = self.faults.as_ref()?.iter().map(|f| f.cause());
        Some(causes.min().map_or(Ok(()), Err))
    }
}

/// The answer in C's form; one block has nothing beside its cause.
pub fn in_c(answer: Result<(), Cause>) -> u64 {
    packed(answer.map(|()| 0).map_err(|cause| (cause, 0)))
}

/// Asks both sides. The reading itself is held to the faults that were put in.
pub fn check(case: &Case, tally: &mut Tally, classes: &[Class<Case>]) {
    tally.count(case, classes, case.answer.is_ok());
    let ours = ours::blocks::judge(&case.block);
    let unexpected = case.known().is_some_and(|known| known != case.answer);
    if ours != in_c(case.answer) || unexpected {
        tally.differs(|| {
            format!(
                "{} with {:?}: ours {ours:X}, the reading {:?}: {:02X?}",
                case.form.name, case.faults, case.answer, case.block
            )
        });
    }
}

/// Every bit of a block of each form changed, the check made right after it or left as it was: so every
/// unused byte and every flag bit is set, at every place.
pub fn every_bit(seed: u64, tally: &mut Tally, classes: &[Class<Case>]) {
    for (i, form) in FORMS.iter().enumerate() {
        let block = checked(&valid(&mut Draw::new(seed, i as u64), form));
        for bit in 0..8 * BLOCK {
            let mut wrong = block;
            wrong[bit / 8] ^= 1 << (bit % 8);
            check(&Case::of(form, wrong, None), tally, classes);
            let body = wrong.first_chunk().expect("a block has a body");
            check(&Case::of(form, checked(body), None), tally, classes);
        }
    }
}

/// Buffers that hold no whole block, and longer ones: how many answers are wrong.
pub fn lengths(seed: u64) -> (u64, u64) {
    let (mut count, mut wrong) = (0, 0);
    for (i, form) in FORMS.iter().enumerate() {
        let block = checked(&valid(&mut Draw::new(seed, i as u64), form));
        let bytes: Vec<u8> = block.iter().chain(&block).copied().collect();
        for length in [0, 1, 4, 507, 508, 511, 512, 513, 1023, 1024] {
            // there is no kind where there is no block
            let cause = if length < BLOCK {
                Cause::Form as u64
            } else {
                0
            };
            count += 1;
            wrong += (ours::blocks::judge(&bytes[..length]) != cause << 32) as u64;
        }
    }
    (count, wrong)
}
