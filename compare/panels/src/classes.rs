//! The edges that a case may lie at, each told from its numbers.
use crate::case::Case;
use crate::frame::Frame;
use crate::glass::{Glass, Table};
use crate::pass::{Pass, WIDEST};
use common::edges::{
    covered_by_canvas, minus_zero, of_canvas, of_clip, of_radius, of_rect, outside, Class,
};

pub fn all() -> Vec<Class<Case>> {
    let shared = [of_canvas(), of_clip(), of_rect(), of_radius()].concat();
    let own = OWN.iter().chain(GLASS).copied();
    shared.into_iter().chain(own).collect()
}

const OWN: &[Class<Case>] = &[
    ("pass: r 0", |c| pass(c, |p, _| p.r == 0)),
    ("pass: r 1", |c| pass(c, |p, _| p.r == 1)),
    ("pass: the window reaches both ends", |c| {
        pass(c, |p, line| p.r >= line)
    }),
    ("pass: the window reaches one end at most", |c| {
        pass(c, |p, line| 2 * p.r < line)
    }),
    ("pass: r 32767", |c| pass(c, |p, _| p.r == WIDEST)),
    ("pass: a line of one cell", |c| pass(c, |_, line| line == 1)),
    ("pass: a line of 4096 cells", |c| {
        pass(c, |_, line| line == 4096)
    }),
    ("pass: cells of one colour", |c| {
        c.before.step == 0 && c.pass().is_some()
    }),
    ("frame: tag 0", |c| frame(c, |f| f.tag == 0)),
    ("frame: tag 1", |c| frame(c, |f| f.tag == 1)),
    ("frame: tag 2", |c| frame(c, |f| f.tag == 2)),
    ("frame: tag 3", |c| frame(c, |f| f.tag == 3)),
    ("frame: tag 4", |c| frame(c, |f| f.tag == 4)),
    ("frame: tag 5", |c| frame(c, |f| f.tag == 5)),
    ("frame: tag 6", |c| frame(c, |f| f.tag == 6)),
    ("frame: a dark window", |c| shows(c, |f| !f.tint && !f.xray)),
    ("frame: a tinted window", |c| {
        shows(c, |f| f.tint && !f.xray)
    }),
    ("frame: x-ray", |c| shows(c, |f| !f.tint && f.xray)),
    ("frame: x-ray over a tint", |c| {
        shows(c, |f| f.tint && f.xray)
    }),
    ("frame: border 0", |c| shows(c, |f| f.window.border == 0)),
    ("frame: border 3", |c| shows(c, |f| f.window.border == 3)),
    ("frame: border 4", |c| shows(c, |f| f.window.border == 4)),
    ("frame: border 5", |c| shows(c, |f| f.window.border == 5)),
    ("frame: border of 28 and more", |c| {
        frame(c, |f| f.window.border >= 28)
    }),
    ("frame: border of half the width", |c| {
        frame(c, |f| {
            f.window.width > 8 && f.window.border == f.window.width / 2
        })
    }),
    ("frame: width 0", |c| frame(c, |f| f.window.width == 0)),
    ("frame: width 8", |c| frame(c, |f| f.window.width == 8)),
    ("frame: width 9", |c| frame(c, |f| f.window.width == 9)),
    ("frame: one column of the window", |c| {
        shows(c, |f| f.window.width == 2 * border(f) + 1)
    }),
    ("frame: height 0", |c| frame(c, |f| f.window.height == 0)),
    ("frame: height 28", |c| frame(c, |f| f.window.height == 28)),
    ("frame: height 32", |c| frame(c, |f| f.window.height == 32)),
    ("frame: height 33", |c| frame(c, |f| f.window.height == 33)),
    ("frame: height 4096", |c| {
        frame(c, |f| f.window.height == 4096)
    }),
    ("frame: ends at the right edge", |c| {
        frame(c, |f| {
            f.window.width > 0 && f.window.x as usize + f.window.width as usize == c.onto.w
        })
    }),
    ("frame: begins below the canvas", |c| {
        frame(c, |f| f.window.y as usize >= c.onto.h)
    }),
    ("frame: ends below the canvas", |c| {
        frame(c, |f| {
            (f.window.y as usize) < c.onto.h
                && f.window.y as usize + f.window.height as usize > c.onto.h
        })
    }),
    ("frame: ends on the canvas, with its lower border", |c| {
        shows(c, |f| {
            f.window.y as usize + f.window.height as usize <= c.onto.h
        })
    }),
];

const GLASS: &[Class<Case>] = &[
    ("glass: wider or higher than the canvas", |c| {
        glass(c, |g| {
            g.rect[2] > c.onto.w as f32 || g.rect[3] > c.onto.h as f32
        })
    }),
    ("glass: within the canvas", |c| {
        glass(c, |_| covered_by_canvas(c))
    }),
    ("glass: partly outside", |c| {
        glass(c, |_| !outside(c) && !covered_by_canvas(c))
    }),
    ("glass: wholly outside", |c| glass(c, |_| outside(c))),
    ("glass: a side just below 2", |c| {
        glass(c, |g| near(g.rect[2], 2.0, -1) || near(g.rect[3], 2.0, -1))
    }),
    ("glass: a side of 2", |c| {
        glass(c, |g| g.rect[2] == 2.0 || g.rect[3] == 2.0)
    }),
    ("glass: blur 0", |c| paints(c, |g| g.style.blur == 0.0)),
    ("glass: blur just below 0.45", |c| blurs(c, 0.45, -1)),
    ("glass: blur 0.45", |c| blurs(c, 0.45, 0)),
    ("glass: blur just above 0.45", |c| blurs(c, 0.45, 1)),
    ("glass: blur just below 2.5", |c| blurs(c, 2.5, -1)),
    ("glass: blur 2.5", |c| blurs(c, 2.5, 0)),
    ("glass: blur just below 6", |c| blurs(c, 6.0, -1)),
    ("glass: blur 6", |c| blurs(c, 6.0, 0)),
    ("glass: blur just below 9", |c| blurs(c, 9.0, -1)),
    ("glass: blur 9", |c| blurs(c, 9.0, 0)),
    ("glass: blur just below 12", |c| blurs(c, 12.0, -1)),
    ("glass: blur 12", |c| blurs(c, 12.0, 0)),
    ("glass: blur 64", |c| blurs(c, 64.0, 0)),
    ("glass: cells of 2 by 2, ragged", |c| {
        paints(c, |g| g.k() == 2 && ragged(c, g))
    }),
    ("glass: cells of 4 by 4, ragged", |c| {
        paints(c, |g| g.k() == 4 && ragged(c, g))
    }),
    ("glass: bezel 0", |c| paints(c, |g| g.style.bezel == 0.0)),
    ("glass: bezel 0.49", |c| {
        paints(c, |g| g.style.bezel == 0.49)
    }),
    ("glass: bezel just below 0.5", |c| {
        paints(c, |g| near(g.style.bezel, 0.5, -1))
    }),
    ("glass: bezel 0.5", |c| paints(c, |g| g.style.bezel == 0.5)),
    ("glass: bezel just above 0.5", |c| {
        paints(c, |g| near(g.style.bezel, 0.5, 1))
    }),
    ("glass: bezel 0.51", |c| {
        paints(c, |g| g.style.bezel == 0.51)
    }),
    ("glass: bezel 256", |c| {
        paints(c, |g| g.style.bezel == 256.0)
    }),
    ("glass: a table of zeros", |c| bends(c, |t| is_flat(t, 0.0))),
    ("glass: a falling table", |c| {
        bends(c, |t| matches!(t, Table::Ramp(_, step) if *step < 0.0))
    }),
    ("glass: a rising table", |c| {
        bends(c, |t| matches!(t, Table::Ramp(_, step) if *step > 0.0))
    }),
    ("glass: a table of 1024", |c| {
        bends(c, |t| is_flat(t, 1024.0))
    }),
    ("glass: a random table", |c| {
        bends(c, |t| matches!(t, Table::Random(_)))
    }),
    ("glass: a table of no numbers, not read", |c| {
        paints(c, |g| matches!(g.table, Table::None))
    }),
    ("glass: saturation 0", |c| {
        paints(c, |g| g.style.saturation == 0.0)
    }),
    ("glass: saturation 1", |c| {
        paints(c, |g| g.style.saturation == 1.0)
    }),
    ("glass: saturation 8", |c| {
        paints(c, |g| g.style.saturation == 8.0)
    }),
    ("glass: brightness -1", |c| {
        paints(c, |g| g.style.brightness == -1.0)
    }),
    ("glass: brightness 0", |c| {
        paints(c, |g| g.style.brightness == 0.0)
    }),
    ("glass: brightness 1", |c| {
        paints(c, |g| g.style.brightness == 1.0)
    }),
    ("glass: tint alpha 0", |c| {
        paints(c, |g| g.style.tint[3] == 0)
    }),
    ("glass: tint alpha 1", |c| {
        paints(c, |g| g.style.tint[3] == 1)
    }),
    ("glass: tint alpha 254", |c| {
        paints(c, |g| g.style.tint[3] == 254)
    }),
    ("glass: tint alpha 255", |c| {
        paints(c, |g| g.style.tint[3] == 255)
    }),
    ("glass: spec 0", |c| paints(c, |g| g.style.spec == 0.0)),
    ("glass: spec -0", |c| {
        paints(c, |g| minus_zero(g.style.spec))
    }),
    ("glass: spec 1", |c| paints(c, |g| g.style.spec == 1.0)),
    ("glass: flat, cells of 1 by 1", |c| {
        paints(c, |g| flat(c, g) && g.k() == 1)
    }),
    ("glass: flat, cells of 2 by 2", |c| {
        paints(c, |g| flat(c, g) && g.k() == 2)
    }),
    ("glass: flat, cells of 4 by 4", |c| {
        paints(c, |g| flat(c, g) && g.k() == 4)
    }),
    ("glass: flat but for too few cells", |c| {
        paints(c, |g| square(g) && !flat(c, g))
    }),
    ("glass: scratch as long as needed", |c| {
        paints(c, |g| g.spare == [0, 0])
    }),
    ("glass: scratch one byte longer", |c| {
        paints(c, |g| g.spare == [1, 1])
    }),
];

/// The pass, and how many cells its lines have.
fn pass(c: &Case, test: impl Fn(&Pass, usize) -> bool) -> bool {
    c.pass().is_some_and(|p| {
        let line = if p.down { c.onto.h } else { c.onto.w };
        test(p, line)
    })
}

fn frame(c: &Case, test: impl Fn(&Frame) -> bool) -> bool {
    c.frame().is_some_and(test)
}

/// A frame of whose window a pixel is on the canvas.
fn shows(c: &Case, test: impl Fn(&Frame) -> bool) -> bool {
    frame(c, |f| {
        let (at, border) = (&f.window, border(f));
        let first = border.max(28);
        at.width > 2 * border
            && at.height > first + border
            && ((at.y + first) as usize) < c.onto.h
            && test(f)
    })
}

fn border(f: &Frame) -> u32 {
    f.window.border.max(4)
}

fn glass(c: &Case, test: impl Fn(&Glass) -> bool) -> bool {
    c.glass().is_some_and(test)
}

/// A panel of which a pixel is under the clip.
fn paints(c: &Case, test: impl Fn(&Glass) -> bool) -> bool {
    glass(c, |g| !g.is_empty(&c.onto) && test(g))
}

/// A panel of this blur, or of the float beside it.
fn blurs(c: &Case, blur: f32, steps: i32) -> bool {
    paints(c, |g| near(g.style.blur, blur, steps))
}

/// A panel whose table is read.
fn bends(c: &Case, test: impl Fn(&Table) -> bool) -> bool {
    paints(c, |g| g.style.bezel > 0.5 && test(&g.table))
}

fn is_flat(table: &Table, v: f32) -> bool {
    matches!(table, Table::Ramp(from, step) if *from == v && *step == 0.0)
}

/// v is that many floats above `edge`.
fn near(v: f32, edge: f32, steps: i32) -> bool {
    v > 0.0 && v.to_bits() as i32 - edge.to_bits() as i32 == steps
}

fn ragged(c: &Case, g: &Glass) -> bool {
    let [x0, y0, x1, y1] = g.window(&c.onto);
    (x1 - x0) % g.k() != 0 && (y1 - y0) % g.k() != 0
}

/// No bezel, no round corners, no shine.
fn square(g: &Glass) -> bool {
    let [_, _, w, h] = g.rect;
    let r = g.style.radius.min(w * 0.5).min(h * 0.5);
    g.style.bezel < 0.5 && r < 0.5 && g.style.spec == 0.0
}

/// Painted by the Rust's short way.
fn flat(c: &Case, g: &Glass) -> bool {
    let [x0, y0, x1, y1] = g.window(&c.onto);
    square(g) && (x1 - x0).min(y1 - y0) > g.k()
}
