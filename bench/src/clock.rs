//! The least time of a piece of work, and a line of the table.

/// Linux's clock of the time that this thread has had a processor: what others run in between is not
/// counted.
mod processor {
    #[repr(C)]
    struct Time {
        seconds: i64,
        ns: i64,
    }

    const THREAD_CPUTIME: i32 = 3;

    unsafe extern "C" {
        fn clock_gettime(clock: i32, time: *mut Time) -> i32;
    }

    /// In ns.
    pub fn time() -> f64 {
        let mut t = Time { seconds: 0, ns: 0 };
        // Safe: `Time` is the layout that 64-bit Linux fills in.
        let status = unsafe { clock_gettime(THREAD_CPUTIME, &mut t) };
        assert_eq!(status, 0, "there is no clock of the thread's time");
        t.seconds as f64 * 1e9 + t.ns as f64
    }
}

/// Many short rounds: on a busy machine some pass without an interruption.
const ROUNDS: u32 = 200;

/// The least time of either piece of work in ns, divided by the number of things that each does.
pub fn least(things: usize, ours: impl FnMut(), rust: impl FnMut()) -> (f64, f64) {
    least_of(ROUNDS, things, ours, rust)
}

/// The same in so many rounds, for work that takes longer.
pub fn least_of(
    rounds: u32,
    things: usize,
    mut ours: impl FnMut(),
    mut rust: impl FnMut(),
) -> (f64, f64) {
    let nothing = Change { from: (), to: () };
    timed(rounds, things, &nothing, |()| ours(), |()| rust())
}

/// What work begins with in each round, and what it has to leave.
pub struct Change<T> {
    pub from: T,
    pub to: T,
}

/// The same for work that changes a value of its side's own. To put it back, and to compare it, is not timed.
pub fn least_changing<T: Clone + PartialEq>(
    things: usize,
    change: &Change<T>,
    ours: impl FnMut(&mut T),
    rust: impl FnMut(&mut T),
) -> (f64, f64) {
    timed(ROUNDS, things, change, ours, rust)
}

fn timed<T: Clone + PartialEq>(
    rounds: u32,
    things: usize,
    change: &Change<T>,
    mut ours: impl FnMut(&mut T),
    mut rust: impl FnMut(&mut T),
) -> (f64, f64) {
    let time = |work: &mut dyn FnMut(&mut T), value: &mut T| {
        value.clone_from(&change.from);
        let start = processor::time();
        work(value);
        let time = (processor::time() - start) / things as f64;
        assert!(*value == change.to, "the work leaves something else");
        time
    };
    let (mut mine, mut theirs) = (change.from.clone(), change.from.clone());
    let mut best = (f64::INFINITY, f64::INFINITY);
    for _ in 0..rounds {
        best.0 = best.0.min(time(&mut ours, &mut mine));
        best.1 = best.1.min(time(&mut rust, &mut theirs));
    }
    best
}

/// The least time of each of several pieces of work that take turns, in the same way.
pub fn least_each<const N: usize>(
    rounds: u32,
    things: usize,
    mut works: [&mut dyn FnMut(); N],
) -> [f64; N] {
    let mut best = [f64::INFINITY; N];
    for _ in 0..rounds {
        for (best, work) in best.iter_mut().zip(&mut works) {
            let start = processor::time();
            work();
            *best = best.min((processor::time() - start) / things as f64);
        }
    }
    best
}

/// What a function is to reach.
#[derive(Clone, Copy)]
pub enum Goal {
    /// At most so many times the Rust's time.
    Ratio(f64),
    /// At most so much time, in this unit.
    Time(f64, &'static str),
    None,
}

pub fn head(unit: &str) {
    head_of(unit, ["ours", "Rust"]);
}

/// The same where the two that take turns are not ours and the Rust's.
pub fn head_of(unit: &str, [a, b]: [&str; 2]) {
    println!("| function | input | {a}, {unit} | {b}, {unit} | {a} / {b} | to reach |");
    println!("|---|---|---|---|---|---|");
}

/// The same with a column for a third that takes turns with the two.
pub fn head_beside(unit: &str, third: &str) {
    println!("| function | input | ours, {unit} | Rust, {unit} | ours / Rust | to reach | {third}, {unit} | ours / {third} |");
    println!("|---|---|---|---|---|---|---|---|");
}

pub fn line(name: &str, input: &str, times: (f64, f64), goal: Goal) {
    println!("{}", cells(name, input, times, goal));
}

/// A line of the wider table; not every row has a third.
pub fn line_beside(name: &str, input: &str, times: (f64, f64), goal: Goal, third: Option<f64>) {
    let cells = cells(name, input, times, goal);
    match third {
        Some(third) => println!("{cells} {third:.2} | {:.2} |", times.0 / third),
        None => println!("{cells} | |"),
    }
}

fn cells(name: &str, input: &str, (ours, rust): (f64, f64), goal: Goal) -> String {
    let ratio = ours / rust;
    let goal = match goal {
        Goal::Ratio(most) => format!("{most}: {}", met(ratio <= most)),
        Goal::Time(most, unit) => format!("{most} {unit}: {}", met(ours <= most)),
        Goal::None => String::new(),
    };
    format!("| {name} | {input} | {ours:.2} | {rust:.2} | {ratio:.2} | {goal} |")
}

fn met(yes: bool) -> &'static str {
    if yes {
        "met"
    } else {
        "NOT met"
    }
}
