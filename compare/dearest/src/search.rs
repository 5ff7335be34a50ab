//! A search beside 02's formula: over small canvases no drawn panel needs more, and some need as much.
use crate::call::BLURS;
use crate::classes::FOUND;
use common::draw::Draw;
use common::layers::draw::{checked, pick, put_float, put_word, valid};
use common::layers::faults::{spoilt_check, Fault};
use common::layers::fields::{Form, KIND};
use common::layers::write::{BLUR, CLIP, RECT};
use common::numbers::{clip, rect};
use common::sorts::Tally;
use reading::{dearest_need, judge, Body, Cause, Glass, Kind, Layer, Show};

/// Canvases have sides from 1 to this.
const SIDES: u64 = 12;

/// A panel that was drawn, what it needs, and what the formula says that none exceeds.
pub struct Found {
    pub width: u32,
    pub height: u32,
    /// The blur that is sought.
    pub blur: f32,
    pub glass: Glass,
    pub judged: Result<(), Cause>,
    pub need: usize,
    pub most: usize,
}

impl Found {
    pub fn is_dear(&self) -> bool {
        self.need == self.most
    }

    pub fn is_other_zero(&self) -> bool {
        self.blur == 0.0 && self.blur.to_bits() != self.glass.blur.to_bits()
    }
}

fn blurs() -> impl Iterator<Item = f32> {
    let blurs = BLURS.into_iter().map(f32::from_bits);
    blurs.filter(|blur| (0.0..=64.0).contains(blur))
}

/// How many choices of a canvas and a blur there are.
pub fn choices() -> u64 {
    SIDES * SIDES * blurs().count() as u64
}

/// Draws so many panels for one choice: none may need more than the formula, and one has to need as much.
pub fn search(seed: u64, choice: u64, panels: u64, tally: &mut Tally) {
    let side = |n: u64| (n % SIDES + 1) as u32;
    let (width, height) = (side(choice), side(choice / SIDES));
    let blur = blurs().nth((choice / SIDES / SIDES) as usize);
    let blur = blur.expect("there are as many choices");
    let mut dearest = 0;
    for i in 0..panels {
        let draw = &mut Draw::new(seed, choice * panels + i);
        let found = draw_panel(draw, width, height, blur);
        tally.count(&found, FOUND, found.judged.is_ok());
        if found.need > found.most {
            tally.differs(|| {
                format!(
                    "{width} by {height}: {:?} needs {}",
                    found.glass, found.need
                )
            });
        }
        dearest = dearest.max(found.need);
    }
    let most = dearest_need(width, height, blur);
    if dearest < most {
        tally.differs(|| format!("{width} by {height}, blur {blur}: {dearest} found of {most}"));
    }
}

/// A panel of this blur, accepted or not.
fn draw_panel(draw: &mut Draw, width: u32, height: u32, blur: f32) -> Found {
    let form = Form::of(4);
    let mut body = valid(draw, form);
    if draw.below(8) > 0 {
        place(draw, width, height, &mut body);
    }
    let faults = draw.below(3);
    let faults: Vec<Fault> = (0..faults)
        .map(|_| Fault::draw(draw, form, &body))
        .collect();
    faults.iter().for_each(|f| f.put(draw, form, &mut body));
    // still a panel of this blur
    body[KIND] = form.kind;
    let signed = if blur == 0.0 {
        pick(draw, &[0.0, -0.0])
    } else {
        blur
    };
    put_float(&mut body, BLUR, signed);
    let block = match faults.contains(&Fault::Check) {
        true => spoilt_check(draw, &body),
        false => checked(&body),
    };
    found(width, height, blur, &body, judge(&block))
}

/// A rectangle and a clip near the canvas.
fn place(draw: &mut Draw, width: u32, height: u32, body: &mut Body) {
    let near = rect(draw, width as usize, height as usize);
    let clip = clip(draw, width as i32, height as i32);
    for i in 0..4 {
        put_float(body, RECT + 4 * i, near[i]);
        put_word(body, CLIP + 4 * i, clip[i] as u32);
    }
}

fn found(width: u32, height: u32, blur: f32, body: &Body, judged: Result<(), Cause>) -> Found {
    let bare = Show {
        rundown: &[],
        width,
        height,
        canvas: 0,
        table: &[],
        pool: 0,
        scratch: [0, 0],
    };
    let layer = Layer::of(body);
    let need = bare.need(&layer);
    let Kind::Glass(glass) = layer.kind else {
        panic!("{:?} is no panel", layer.kind);
    };
    Found {
        width,
        height,
        blur,
        glass: *glass,
        judged,
        need,
        most: dearest_need(width, height, blur),
    }
}
