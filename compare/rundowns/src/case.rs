//! A whole rundown with all that a play is lent, and the same with one source changed.
use crate::faults::{number_for, plan, spoil_length, spoil_sources, wrong_canvas, Fault};
use crate::layers::{widen, Stage};
use common::draw::Draw;
use common::layers::draw::{checked, pick};
use common::layers::faults::{spoilt_check, Fault as BlockFault};
use common::layers::fields::{Form, FORMS, PRIORITY};
use common::layers::write::body;
use common::lend::{Lent, Played};
use common::numbers::{measure, up_to, Canvas, Pixels};
use ours::surface;
use reading::{priority_of, Answer, Body, Cause, Kind, Layer, Show, BLOCK, MOST};

/// The longest side of a canvas or of a source.
const LONGEST: u32 = 4096;

/// How large a case is.
#[derive(Clone, Copy, PartialEq, Eq)]
pub enum Size {
    /// Mostly small canvases and up to twelve layers.
    Any,
    /// 256 layers on a canvas of a few pixels.
    Full,
    /// A canvas with a side of 4096, or with sides that are refused, and no pixel of it or of a source:
    /// the forecast alone can count it.
    Bare,
    /// The same with 256 panels of k = 1, each over all of the largest canvas.
    Glazed,
    /// 64 pixels and up to four layers.
    Recorded,
    /// The same with larger sources: of smaller ones no corner is so round that its coverage is 0.
    Round,
}

#[derive(Clone, Debug)]
pub struct Case {
    pub rundown: Vec<u8>,
    pub width: u32,
    pub height: u32,
    /// The sides and the length of the table that its layers were drawn for: faults change them.
    stage: [u32; 3],
    pub canvas: Vec<u32>,
    pub table: Vec<u32>,
    pub pool: Vec<u32>,
    /// The lengths of the scratch slices.
    pub scratch: [usize; 2],
    /// The faults that were put in. None where bytes were changed at random: then the reading alone
    /// knows the cause.
    pub faults: Option<Vec<Fault>>,
    /// The source whose pixels are other ones in the second play, and the pool of that.
    pub hidden: usize,
    pub other: Vec<u32>,
}

impl Case {
    pub fn draw(draw: &mut Draw, size: Size) -> Case {
        let (width, height) = canvas_size(draw, size);
        let sizes = sources(draw, size, width, height);
        let stage = Stage {
            width,
            height,
            sizes: &sizes,
        };
        let (faults, layers) = contents(draw, &stage, size);
        let mut case = Case {
            rundown: Vec::new(),
            width: width as u32,
            height: height as u32,
            stage: [width, height, 2 * sizes.len()].map(|n| n as u32),
            canvas: Vec::new(),
            table: sizes.iter().flatten().copied().collect(),
            pool: Vec::new(),
            scratch: [0, 0],
            faults: Some(faults),
            hidden: 0,
            other: Vec::new(),
        };
        if matches!(size, Size::Bare | Size::Glazed) {
            case.strip(draw, size);
        } else {
            case.canvas = Pixels::draw(draw).take(width * height);
            case.pool = pixels(draw, size, &sizes);
            case.lend_scratch(draw, &layers);
        }
        case.write(draw, &layers);
        case.spoil_the_rest(draw);
        if draw.below(24) == 0 {
            case.damage(draw);
        }
        case.hide(draw);
        case
    }

    /// What the answer depends on.
    pub fn show(&self) -> Show<'_> {
        Show {
            rundown: &self.rundown,
            width: self.width,
            height: self.height,
            canvas: self.canvas.len(),
            table: &self.table,
            pool: self.pool.len(),
            scratch: self.scratch,
        }
    }

    /// What the library is lent to read, with this pool.
    pub fn lent<'a>(&'a self, pool: &'a [u32]) -> surface::Show<'a> {
        surface::Show {
            rundown: &self.rundown,
            width: self.width,
            height: self.height,
            table: &self.table,
            pool,
        }
    }

    /// Played with this pool and with scratch slices of these lengths.
    pub fn play(&self, pool: &[u32], lengths: [usize; 2], lent: Lent, filled: u8) -> Played {
        let show = self.lent(pool);
        Played::of(surface::play, show, &self.canvas, lengths, lent, filled)
    }

    /// The same with so much scratch in each slice.
    pub fn lending(&self, scratch: usize) -> Case {
        let mut case = self.clone();
        case.scratch = [scratch; 2];
        case
    }

    /// What the faults that were put in are refused for: the first of them in 01's order.
    pub fn known(&self) -> Option<Answer> {
        self.known_of(|_| true)
    }

    /// The same of the forecast, which looks at no length of pixels and at no scratch. None where sides or
    /// table are others that pass: other frames and sources may be beyond them.
    pub fn known_forecast(&self) -> Option<Answer> {
        let has_sides = self.width.min(self.height) > 0 && self.width.max(self.height) <= LONGEST;
        let given = [self.width, self.height, self.table.len() as u32];
        if has_sides && self.has_table() && given != self.stage {
            return None;
        }
        self.known_of(|fault| match fault.cause {
            Cause::Canvas => !has_sides,
            Cause::Sources => !self.has_table(),
            cause => cause != Cause::Scratch,
        })
    }

    fn known_of(&self, counts: impl Fn(&Fault) -> bool) -> Option<Answer> {
        let faults = self.faults.as_ref()?.iter().filter(|f| counts(f));
        let first = faults.min_by_key(|f| f.rank());
        Some(first.map_or(Ok(self.rundown.len() / BLOCK), |f| Err((f.cause, f.at))))
    }

    /// Whether the table itself is right.
    pub fn has_table(&self) -> bool {
        is_table(&self.table)
    }

    fn has(&self, cause: Cause) -> bool {
        let faults = self.faults.as_ref();
        faults.is_some_and(|faults| faults.iter().any(|f| f.cause == cause))
    }

    /// Without pixels the canvas is refused; as are some sides.
    fn strip(&mut self, draw: &mut Draw, size: Size) {
        const SIDES: [u32; 4] = [0, LONGEST + 1, 1 << 16, u32::MAX];
        if size == Size::Bare {
            match draw.below(6) {
                0 => self.width = pick(draw, &SIDES),
                1 => self.height = pick(draw, &SIDES),
                2 => (self.width, self.height) = (pick(draw, &SIDES), pick(draw, &SIDES)),
                _ => {}
            }
        }
        let faults = self.faults.get_or_insert_default();
        faults.retain(|f| f.cause != Cause::Canvas);
        faults.push(Fault {
            cause: Cause::Canvas,
            at: 0,
        });
    }

    /// As much scratch as is needed, or somewhat more; or less than the layer with the fault needs.
    fn lend_scratch(&mut self, draw: &mut Draw, layers: &[Layer]) {
        let needs: Vec<usize> = layers.iter().map(|l| self.show().need(l)).collect();
        let most = needs.iter().copied().max().unwrap_or(0);
        self.scratch = [0, 1].map(|_| most + pick(draw, &[0, 0, 1, 40]));
        let faults = self.faults.iter_mut().flatten();
        for fault in faults.filter(|f| f.cause == Cause::Scratch) {
            let need = needs[fault.at];
            let short = pick(draw, &[need - 1, need - 1, need - 1, need / 2, 0]);
            match draw.below(4) {
                0 => self.scratch = [short, short],
                n => self.scratch[n as usize % 2] = short,
            }
            // an earlier one may want as much
            let at = needs.iter().position(|need| *need > short);
            fault.at = at.expect("the layer itself needs more");
        }
    }

    /// The blocks, with the faults of each.
    fn write(&mut self, draw: &mut Draw, layers: &[Layer]) {
        let mut bodies: Vec<Body> = layers.iter().map(body).collect();
        let faults = self.faults.clone().unwrap_or_default();
        for fault in &faults {
            match fault.cause {
                Cause::Priority => repeat(draw, &mut bodies, fault.at),
                Cause::Source => {
                    let count = self.table.len() as u32 / 2;
                    let source = pick(draw, &[count, count, count + 1, 16, 255, u32::MAX]);
                    let source = source.max(count);
                    bodies[fault.at][4..8].copy_from_slice(&source.to_le_bytes());
                }
                Cause::Frame => {
                    let [x, width] = beyond(draw, self.stage[0]);
                    bodies[fault.at][8..12].copy_from_slice(&x.to_le_bytes());
                    bodies[fault.at][16..20].copy_from_slice(&width.to_le_bytes());
                }
                _ => {}
            }
        }
        for (i, body) in bodies.iter_mut().enumerate() {
            let here = faults.iter().filter(|f| f.at == i).map(|f| f.cause);
            let block = spoilt(draw, body, layers[i].number(), here.collect());
            self.rundown.extend(block);
        }
    }

    /// The faults that are of no block.
    fn spoil_the_rest(&mut self, draw: &mut Draw) {
        // one without pixels is wrong as it is
        if self.has(Cause::Canvas) && !self.canvas.is_empty() {
            let (width, height, pixels) = wrong_canvas(draw, self.width, self.height);
            (self.width, self.height) = (width, height);
            self.canvas.resize(pixels, 0x1234_5678);
        }
        if self.has(Cause::Sources) {
            spoil_sources(draw, &mut self.table, &mut self.pool);
        }
        if self.has(Cause::Rundown) {
            spoil_length(draw, &mut self.rundown);
        }
    }

    /// Bytes changed anywhere; the check mostly made right after it.
    fn damage(&mut self, draw: &mut Draw) {
        self.faults = None;
        let count = self.rundown.len() / BLOCK;
        if count == 0 {
            return;
        }
        for _ in 0..=draw.below(2) {
            let from = BLOCK * draw.below(count as u64) as usize;
            let block = &mut self.rundown[from..from + BLOCK];
            // mostly where fields stand
            let last = pick(draw, &[32, 104, 272, BLOCK]);
            block[draw.below(last as u64) as usize] = draw.byte();
            if draw.below(8) > 0 {
                let right = checked(block.first_chunk().expect("a block has a body"));
                block.copy_from_slice(&right);
            }
        }
    }

    /// Another pool, which differs at the words of one source alone.
    fn hide(&mut self, draw: &mut Draw) {
        let sources = self.table.len() as u64 / 2;
        // now and then one that is not there
        self.hidden = match draw.below(16) {
            0 => sources + draw.below(3),
            _ => draw.below(sources.max(1)),
        } as usize;
        self.other = self.pool.clone();
        let words = self.show().words_of(self.hidden);
        disturb(draw, &mut self.other[words]);
    }
}

/// Whether a table is right, whatever the pool's length.
pub fn is_table(table: &[u32]) -> bool {
    table.len().is_multiple_of(2)
        && table.len() <= 32
        && table.iter().all(|n| (1..=LONGEST).contains(n))
}

/// Other words: one bit, all of them, or any.
pub fn disturb(draw: &mut Draw, words: &mut [u32]) {
    match draw.below(4) {
        0 if !words.is_empty() => {
            words[draw.below(words.len() as u64) as usize] ^= 1 << draw.below(24);
        }
        1 => words.iter_mut().for_each(|w| *w = !*w),
        _ => words.iter_mut().for_each(|w| *w = draw.bits() as u32),
    }
}

/// The block of this body, of this kind, with the faults that are of one block alone.
fn spoilt(draw: &mut Draw, body: &mut Body, number: usize, mut causes: Vec<Cause>) -> [u8; BLOCK] {
    // what is torn goes by the bezel, so that may not have got a fault before
    causes.sort_by_key(|cause| *cause != Cause::Bend);
    for cause in &causes {
        match cause {
            Cause::Form | Cause::Float | Cause::Integer | Cause::Bend => {
                put_fault(draw, body, number, *cause)
            }
            _ => {}
        }
    }
    if causes.contains(&Cause::Check) {
        spoilt_check(draw, body)
    } else {
        checked(body)
    }
}

/// A fault of this cause.
fn put_fault(draw: &mut Draw, body: &mut Body, number: usize, cause: Cause) {
    // a fault before this one may have made it a kind that is none
    let paint = if number == 1 { body[29] } else { 0 };
    let known = |f: &&Form| f.kind == number as u8 && (f.paint == paint || paint > 3);
    let form = FORMS.iter().find(known).expect("every kind has a form");
    loop {
        let fault = BlockFault::draw(draw, form, body);
        if fault.cause() == cause {
            return fault.put(draw, form, body);
        }
    }
}

/// Block `at`, and now and then a later one, gets the priority of an earlier one.
fn repeat(draw: &mut Draw, bodies: &mut [Body], at: usize) {
    let earlier = draw.below(at as u64) as usize;
    let priority = priority_of(&bodies[earlier]).to_le_bytes();
    bodies[at][PRIORITY..PRIORITY + 2].copy_from_slice(&priority);
    let later = at + 1 + draw.below(4) as usize;
    if let Some(body) = bodies.get_mut(later) {
        body[PRIORITY..PRIORITY + 2].copy_from_slice(&priority);
    }
}

/// A frame's column and width that end beyond the canvas's w columns.
fn beyond(draw: &mut Draw, w: u32) -> [u32; 2] {
    let [x, width] = match draw.below(6) {
        0 => [w + 1, 0],
        1 => [w, 1],
        2 => [0, w + 1],
        3 => [16384, LONGEST],
        4 => [16384, 0],
        _ => {
            let x = draw.below(w as u64 + 1) as u32;
            [x, w - x + 1 + draw.below(40) as u32]
        }
    };
    // what would be too wide starts further right
    let more = width.saturating_sub(LONGEST);
    [x + more, width - more]
}

fn canvas_size(draw: &mut Draw, size: Size) -> (usize, usize) {
    match size {
        Size::Any => match draw.below(64) {
            0..=1 => (1, 1),
            2..=9 => (up_to(draw, 4), up_to(draw, 4)),
            10..=13 => (up_to(draw, 70), up_to(draw, 3)),
            14..=17 => (20 + up_to(draw, 28), 24 + up_to(draw, 24)),
            18 => (up_to(draw, 160), up_to(draw, 90)),
            19..=34 => (up_to(draw, 40), up_to(draw, 30)),
            _ => (up_to(draw, 16), up_to(draw, 12)),
        },
        Size::Full => (up_to(draw, 5), up_to(draw, 4)),
        Size::Bare => match draw.below(4) {
            0 => (LONGEST as usize, up_to(draw, LONGEST as u64)),
            1 => (up_to(draw, LONGEST as u64), LONGEST as usize),
            _ => (LONGEST as usize, LONGEST as usize),
        },
        Size::Glazed => (LONGEST as usize, LONGEST as usize),
        Size::Recorded | Size::Round => measure(draw, Canvas::Recorded),
    }
}

/// The sources' sizes.
fn sources(draw: &mut Draw, size: Size, w: usize, h: usize) -> Vec<[u32; 2]> {
    let most = match size {
        Size::Recorded | Size::Round => 3,
        _ => pick(draw, &[1, 2, 3, 3, 4, 4, 16]),
    };
    let count = match draw.below(16) {
        0 => 0,
        1 => most,
        _ => 1 + draw.below(most),
    };
    (0..count)
        .map(|_| {
            let (w, h) = match (size, draw.below(16)) {
                (Size::Recorded, _) => (up_to(draw, 5), up_to(draw, 4)),
                (Size::Round, _) => (5 + up_to(draw, 3), 5 + up_to(draw, 3)),
                (_, 0..=1) => (1, 1),
                (_, 2..=4) => (w, h),
                (_, 5) => (up_to(draw, 70), 1),
                (_, 6) => (1, up_to(draw, 40)),
                (_, 7) if draw.below(16) == 0 => (4096, up_to(draw, 2)),
                _ => (up_to(draw, 12), up_to(draw, 12)),
            };
            [w as u32, h as u32]
        })
        .collect()
}

/// The sources' pixels; a record's all follow from two words.
fn pixels(draw: &mut Draw, size: Size, sizes: &[[u32; 2]]) -> Vec<u32> {
    let counts = sizes.iter().map(|[w, h]| (w * h) as usize);
    if matches!(size, Size::Recorded | Size::Round) {
        return Pixels::draw(draw).take(counts.sum());
    }
    counts
        .flat_map(|count| Pixels::draw(draw).take(count))
        .collect()
}

fn layer_count(draw: &mut Draw, size: Size) -> usize {
    match size {
        Size::Any | Size::Bare => match draw.below(32) {
            0 => 0,
            1..=3 => 1,
            4..=6 => 12,
            _ => 2 + draw.below(10) as usize,
        },
        Size::Full | Size::Glazed => MOST,
        Size::Recorded | Size::Round => match draw.below(16) {
            0 => 0,
            n => 1 + n as usize % 4,
        },
    }
}

/// The faults that are to be put in, and the layers.
fn contents(draw: &mut Draw, stage: &Stage, size: Size) -> (Vec<Fault>, Vec<Layer>) {
    let blocks = layer_count(draw, size);
    if size == Size::Glazed {
        let panel = |priority| full_panel(draw, stage, priority as u16);
        return (Vec::new(), (0..blocks).map(panel).collect());
    }
    let faults = plan(draw, stage, blocks);
    let layers = layers(draw, stage, &faults, blocks);
    (faults, layers)
}

/// Layers that pass, but for the faults that are to be put in, each of a kind that can have them.
fn layers(draw: &mut Draw, stage: &Stage, faults: &[Fault], count: usize) -> Vec<Layer> {
    let mut priorities = Vec::with_capacity(count);
    (0..count)
        .map(|i| {
            let priority = priority(draw, &priorities);
            priorities.push(priority);
            let number = number_for(draw, stage, faults, i).expect("the plan has a kind for it");
            let wanting = |cause| faults.iter().any(|f| f.at == i && f.cause == cause);
            let mut layer = if wanting(Cause::Scratch) {
                panel_on(draw, stage, priority)
            } else {
                stage.layer(draw, number, priority)
            };
            match &mut layer.kind {
                Kind::Glass(glass) if wanting(Cause::Bend) => widen(draw, glass),
                _ => {}
            }
            layer
        })
        .collect()
}

/// A glass that needs scratch.
fn panel_on(draw: &mut Draw, stage: &Stage, priority: u16) -> Layer {
    let (w, h) = (stage.width as i32, stage.height as i32);
    let mut layer = stage.layer(draw, 4, priority);
    layer.clip = [0, 0, w, h];
    if let Kind::Glass(glass) = &mut layer.kind {
        let [x, y, rw, rh] = &mut glass.rect;
        (*x, *y) = (x.clamp(-1.0, 0.0), y.clamp(-1.0, 0.0));
        (*rw, *rh) = (rw.max(2.0), rh.max(2.0));
    }
    layer
}

/// A panel of k = 1 over all of the canvas.
fn full_panel(draw: &mut Draw, stage: &Stage, priority: u16) -> Layer {
    let mut layer = panel_on(draw, stage, priority);
    if let Kind::Glass(glass) = &mut layer.kind {
        let [w, h] = [stage.width as f32, stage.height as f32];
        glass.rect = [0.0, 0.0, w, h];
        glass.blur = pick(draw, &[0.0, 2.0, 2.5f32.next_down()]);
    }
    layer
}

/// A priority that none of these is, often one that would stand elsewhere in the order of text or of
/// single bytes.
pub fn priority(draw: &mut Draw, taken: &[u16]) -> u16 {
    const ALIKE: [u16; 16] = [
        9, 10, 99, 100, 256, 65535, 0, 1, 255, 2, 20, 257, 0x7FFF, 0x8000, 0xFF00, 1000,
    ];
    loop {
        let p = match draw.below(3) {
            0..=1 => pick(draw, &ALIKE),
            _ => draw.bits() as u16,
        };
        if !taken.contains(&p) {
            return p;
        }
    }
}
