//! What a block of each form holds, field by field: from this list blocks are drawn, and faults put
//! into them whose cause is known beforehand.
use crate::draw::Draw;
use reading::BODY;
use std::ops::Range;
use std::sync::LazyLock;

pub const KIND: usize = 0;
pub const FLAGS: usize = 1;
pub const PRIORITY: usize = 2;
pub const TAG: usize = 28;
pub const PAINT: usize = 29;
pub const BEZEL: usize = 68;
pub const TABLE: usize = 104;
/// Where the table's last entry stands: it has to be 0.
pub const TABLE_END: usize = 232;

/// A float or an integer: where it stands, and both ends of its range.
#[derive(Clone, Copy, Debug)]
pub struct Field<T> {
    pub at: usize,
    pub lo: T,
    pub hi: T,
}

/// A kind of layer; a fill has four forms, by its paint.
pub struct Form {
    pub name: &'static str,
    pub kind: u8,
    pub paint: u8,
    pub flags: u8,
    pub floats: Vec<Field<f32>>,
    pub integers: Vec<Field<i32>>,
    /// Bytes that may be any: colours, the source's number. The table stands apart.
    pub any: Vec<Range<usize>>,
    /// The bytes that have to be zero.
    pub unused: Vec<usize>,
}

const FAR: f32 = 16384.0;
const FAR_PIXEL: i32 = 16384;

fn float(at: usize, lo: f32, hi: f32) -> Field<f32> {
    Field { at, lo, hi }
}

fn integer(at: usize, lo: i32, hi: i32) -> Field<i32> {
    Field { at, lo, hi }
}

fn rect() -> Vec<Field<f32>> {
    let place = |at| float(at, -FAR, FAR);
    let side = |at| float(at, 0.0, FAR);
    vec![place(32), place(36), side(40), side(44)]
}

fn rounded() -> Vec<Field<f32>> {
    let mut fields = rect();
    fields.push(float(48, 0.0, 8192.0));
    fields
}

fn numbers(count: usize) -> impl Iterator<Item = Field<f32>> {
    (0..count).map(|i| float(256 + 4 * i, -FAR, FAR))
}

impl Form {
    /// Any of them.
    pub fn draw(draw: &mut Draw) -> &'static Form {
        &FORMS[draw.below(FORMS.len() as u64) as usize]
    }

    /// The first of this kind.
    pub fn of(kind: u8) -> &'static Form {
        let form = FORMS.iter().find(|form| form.kind == kind);
        form.expect("every kind has a form")
    }

    fn new(name: &'static str, kind: u8, floats: Vec<Field<f32>>) -> Form {
        Form {
            name,
            kind,
            paint: 0,
            flags: 0,
            floats,
            integers: (0..4)
                .map(|i| integer(236 + 4 * i, -FAR_PIXEL, FAR_PIXEL))
                .collect(),
            any: Vec::new(),
            unused: Vec::new(),
        }
    }

    fn with(mut self, floats: impl IntoIterator<Item = Field<f32>>) -> Form {
        self.floats.extend(floats);
        self
    }

    fn any(mut self, bytes: impl IntoIterator<Item = Range<usize>>) -> Form {
        self.any.extend(bytes);
        self
    }

    fn whole(mut self, integers: impl IntoIterator<Item = Field<i32>>) -> Form {
        self.integers.extend(integers);
        self
    }

    fn paint(self, paint: u8) -> Form {
        Form { paint, ..self }
    }

    fn flags(self, flags: u8) -> Form {
        Form { flags, ..self }
    }

    /// The bytes that no field takes.
    fn settled(mut self) -> Form {
        let mut used = [false; BODY];
        let mut take = |bytes: Range<usize>| used[bytes].fill(true);
        take(KIND..PRIORITY + 2);
        self.floats.iter().for_each(|f| take(f.at..f.at + 4));
        self.integers.iter().for_each(|f| take(f.at..f.at + 4));
        self.any.iter().cloned().for_each(&mut take);
        match self.kind {
            1 => take(PAINT..PAINT + 1),
            4 => take(TABLE..TABLE_END + 4),
            8 => take(TAG..TAG + 1),
            _ => {}
        }
        self.unused = (0..BODY).filter(|at| !used[*at]).collect();
        self
    }
}

/// Every form.
pub static FORMS: LazyLock<Vec<Form>> = LazyLock::new(forms);

fn forms() -> Vec<Form> {
    let colour = 56..60;
    let second = 252..256;
    let source = 4..8;
    let copy_place = [8, 12].map(|at| integer(at, -FAR_PIXEL, FAR_PIXEL));
    let frame_place = [8, 12].map(|at| integer(at, 0, FAR_PIXEL));
    let frame_size = [16, 20, 24].map(|at| integer(at, 0, 4096));
    let fill = |name| Form::new(name, 1, rounded()).any([colour.clone()]);
    let graded = |name| fill(name).any([second.clone()]);
    let forms = vec![
        fill("fill, solid"),
        graded("fill, VGrad").paint(1).with(numbers(2)),
        graded("fill, Linear").paint(2).with(numbers(4)),
        graded("fill, Radial")
            .paint(3)
            .with(numbers(2))
            .with([float(264, 0.0, FAR)]),
        Form::new("stroke", 2, rounded())
            .with([float(100, 0.0, 256.0)])
            .any([colour.clone()]),
        Form::new("shadow", 3, rounded())
            .with([float(52, 0.0, 256.0)])
            .any([colour.clone()])
            .flags(0b01),
        Form::new("glass", 4, rounded())
            .with([float(52, 0.0, 64.0), float(60, 0.0, 8.0)])
            .with([float(64, -1.0, 1.0), float(BEZEL, 0.0, 256.0)])
            .with([float(72, 0.0, 1.0)])
            .any([colour.clone()]),
        Form::new("straight copy", 5, vec![float(48, 0.0, 8192.0)])
            .any([source.clone()])
            .whole(copy_place)
            .whole([76, 80].map(|at| integer(at, 0, 255))),
        Form::new("scaled copy", 6, rounded())
            .with([float(84, 0.0, 1.0)])
            .any([source.clone()]),
        Form::new("genie copy", 7, rect())
            .with([float(84, 0.0, 1.0), float(88, 0.0, 1.0)])
            .with([92, 96].map(|at| float(at, -FAR, FAR)))
            .any([source.clone()]),
        Form::new("frame", 8, vec![])
            .whole(frame_place)
            .whole(frame_size)
            .flags(0b11),
    ];
    forms.into_iter().map(Form::settled).collect()
}
