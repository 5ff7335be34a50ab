//! Playing in steps at 1920 × 1080. First µs a call, and of 258 calls, where 256 layers paint nothing: kash-ui has no
//! tests, so the Rust is the reading in `compare/reading`. Then ms of a whole show in steps, beside a play of it.
use crate::clock::{head, head_of, least, least_of, line, Goal};
use crate::shows::{shuffled, Lent, MS};
use crate::sides::{canvas, HEIGHT, ROUNDS, WIDTH};
use ours::surface::{self, Show};
use reading::{last_painted, packed, MOST};
use std::cell::RefCell;
use std::hint::black_box;

/// ns of a µs.
const US: usize = 1000;

/// So many calls are timed together.
const CALLS: usize = 16;

/// More rounds than elsewhere, for what is compared differs by little.
const SHOW_ROUNDS: u32 = 100;

const NONE: u32 = u32::MAX;
const NO_NEXT: u64 = 16 << 32;

const A_CALL: Goal = Goal::Time(100.0, "µs");
const ALL_CALLS: Goal = Goal::Time(25_000.0, "µs");
const BESIDE_PLAY: Goal = Goal::Ratio(1.03);

/// The reading's functions behind calls like the archive's.
mod far {
    use reading::{Answer, Show};

    #[inline(never)]
    pub fn begin(show: &Show) -> Answer {
        show.begin()
    }

    /// The priority that is painted.
    #[inline(never)]
    pub fn step(show: &Show, last: Option<u16>) -> Answer {
        show.step(last).map(|layer| layer.priority as usize)
    }
}

pub fn table() {
    head("µs");
    let priorities = shuffled((0..MOST as u16).collect());
    let idle = Lent::idle(&priorities);
    begun(&idle);
    stepped(
        &idle,
        "256 layers, empty boxes, in no order: the lowest",
        NONE,
    );
    stepped(&idle, "the same: the middle one", 127);
    stepped(&idle, "the same: the highest", 254);
    stepped(&idle, "the same: 16", 255);
    all_idle(&idle);
    println!();
    head_of("ms", ["in steps", "play"]);
    show();
}

fn begun(idle: &Lent) {
    let (show, read) = (idle.show(), idle.read());
    let canvas = vec![0; WIDTH * HEIGHT];
    let times = least(
        CALLS * US,
        || {
            for _ in 0..CALLS {
                assert_eq!(surface::begin(black_box(show), &canvas, &[], &[]), 256);
            }
        },
        || {
            for _ in 0..CALLS {
                assert_eq!(far::begin(black_box(&read)), Ok(MOST));
            }
        },
    );
    line(
        "begin",
        "256 layers, empty boxes, in no order",
        times,
        A_CALL,
    );
}

fn stepped(idle: &Lent, what: &str, last: u32) {
    let (show, read) = (idle.show(), idle.read());
    let mut canvas = vec![0; WIDTH * HEIGHT];
    let answer = far::step(&read, last_painted(last));
    let times = least(
        CALLS * US,
        || {
            for _ in 0..CALLS {
                let ours = surface::step(black_box(show), &mut canvas, &mut [], &mut [], last);
                assert_eq!(ours, packed(answer));
            }
        },
        || {
            for _ in 0..CALLS {
                let last = last_painted(black_box(last));
                assert_eq!(far::step(black_box(&read), last), answer);
            }
        },
    );
    line("step", what, times, A_CALL);
}

/// A begin, and steps up to the one that is refused: the count of layers.
fn in_steps(show: Show, canvas: &mut [u32], a: &mut [u8], b: &mut [u8]) -> u64 {
    let layers = surface::begin(show, canvas, a, b);
    let (mut last, mut painted) = (NONE, 0);
    let end = loop {
        let answer = surface::step(show, canvas, a, b, last);
        if answer >> 32 != 0 {
            break answer;
        }
        (last, painted) = (answer as u32, painted + 1);
    };
    assert_eq!((painted, end), (layers, NO_NEXT));
    layers
}

/// The same by the reading.
fn read_in_steps(read: &reading::Show) -> usize {
    let layers = far::begin(read).expect("it is accepted");
    let mut last = None;
    while let Ok(priority) = far::step(read, last) {
        last = Some(priority as u16);
    }
    layers
}

fn all_idle(idle: &Lent) {
    let (show, read) = (idle.show(), idle.read());
    let mut canvas = vec![0; WIDTH * HEIGHT];
    let times = least_of(
        ROUNDS,
        US,
        || assert_eq!(in_steps(show, &mut canvas, &mut [], &mut []), 256),
        || assert_eq!(read_in_steps(black_box(&read)), MOST),
    );
    line("begin, steps, 16", "the same: 258 calls", times, ALL_CALLS);
}

/// What a playing writes: one canvas and one scratch for both, so that neither has the better place in memory.
struct Written {
    canvas: Vec<u32>,
    a: Vec<u8>,
    b: Vec<u8>,
}

/// The twelve-layer show: 14 calls beside one.
fn show() {
    let lent = Lent::twelve();
    let show = lent.show();
    let written = RefCell::new(Written {
        canvas: canvas(3, WIDTH, HEIGHT).px,
        a: vec![0; 3 * WIDTH * HEIGHT],
        b: vec![0; 3 * WIDTH * HEIGHT],
    });
    let playing = |play: fn(Show, &mut [u32], &mut [u8], &mut [u8]) -> u64| {
        let Written { canvas, a, b } = &mut *written.borrow_mut();
        assert_eq!(play(show, canvas, a, b), 12);
    };
    let left = |play| {
        let before = written.borrow().canvas.clone();
        playing(play);
        std::mem::replace(&mut written.borrow_mut().canvas, before)
    };
    assert!(
        left(in_steps) == left(surface::play),
        "the steps paint another show"
    );
    let times = least_of(
        SHOW_ROUNDS,
        MS,
        || playing(in_steps),
        || playing(surface::play),
    );
    line(
        "begin, steps, 16",
        "twelve layers, all kinds",
        times,
        BESIDE_PLAY,
    );
}
