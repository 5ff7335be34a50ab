//! Which field of a layer is out of its range, and which entry of a table does not suit its bezel. The
//! ranges are the library's, and it is asked: a block in which every other field is 0, which all ranges
//! hold, is refused because of this one.
use crate::block::{
    BEZEL, BLUR, BODY, BORDER, BRIGHTNESS, CLIP, FLOAT_ALPHA, HEIGHT, LEN, NUMBERS, RADIUS, RECT,
    SATURATION, SPEC, STROKE_WIDTH, T, TABLE, TARGET, WIDTH, X, Y,
};
use crate::detail::{Bend, Detail};
use crate::{raw, Cause, Refusal, DISPLACEMENT_LEN};

/// A field as the layers' structs name it, where it stands, and its words.
type Field = (&'static str, usize, usize);

/// The fields that have a range. The table comes behind the bezel, which settles whether it is read.
const FIELDS: [Field; 19] = [
    ("x", X, 1),
    ("y", Y, 1),
    ("width", WIDTH, 1),
    ("height", HEIGHT, 1),
    ("border", BORDER, 1),
    ("rect", RECT, 4),
    ("radius", RADIUS, 1),
    ("blur", BLUR, 1),
    ("saturation", SATURATION, 1),
    ("brightness", BRIGHTNESS, 1),
    ("bezel", BEZEL, 1),
    ("spec", SPEC, 1),
    ("alpha", FLOAT_ALPHA, 1),
    ("t", T, 1),
    ("target", TARGET, 2),
    ("width", STROKE_WIDTH, 1),
    ("displacement", TABLE, DISPLACEMENT_LEN),
    ("clip", CLIP, 4),
    ("paint", NUMBERS, 4),
];

/// The refusal of a layer that was added, with the field's name if a field is out of its range, and with
/// the entry of a table that does not suit its bezel.
pub(crate) fn named(refusal: Refusal, body: &[u8; BODY]) -> Refusal {
    let cause = refusal.cause();
    let name = || {
        let mut fields = FIELDS.iter();
        let wrong = fields.find(|field| refused(field, body) == Some(cause));
        wrong.map(|(name, ..)| *name)
    };
    refusal.with(match cause {
        Cause::FloatRange => name().map(Detail::Float),
        Cause::IntegerRange => name().map(Detail::Integer),
        Cause::Bend => torn(body).map(Detail::Bend),
        _ => return refusal,
    })
}

/// The first entry of the table that the library refuses where all others are 0.
fn torn(body: &[u8; BODY]) -> Option<Bend> {
    let at = |entry: usize| TABLE + 4 * entry..TABLE + 4 * (entry + 1);
    let word = |bytes: &[u8]| bytes.try_into().map(u32::from_le_bytes).ok();
    let entry = (0..DISPLACEMENT_LEN).find(|entry| {
        let mut alone = *body;
        alone[TABLE..at(DISPLACEMENT_LEN).start].fill(0);
        alone[at(*entry)].copy_from_slice(&body[at(*entry)]);
        verdict(&alone) == Some(Cause::Bend)
    })?;
    Some(Bend {
        entry,
        value: word(&body[at(entry)])?,
        bezel: word(&body[BEZEL..BEZEL + 4])?,
    })
}

/// What the library says of the block with this field alone.
fn refused(field: &Field, body: &[u8; BODY]) -> Option<Cause> {
    let mut alone = *body;
    let with_bezel = field.1 == TABLE;
    for (_, at, words) in FIELDS.iter().filter(|(_, at, _)| *at != field.1) {
        if !(with_bezel && *at == BEZEL) {
            alone[*at..at + 4 * words].fill(0);
        }
    }
    verdict(&alone)
}

/// Why the library refuses the block, if it does.
fn verdict(body: &[u8; BODY]) -> Option<Cause> {
    let answer = raw::add(&mut [0; LEN], 0, body);
    answer.err().map(|refusal| refusal.cause())
}
