//! What the comparing programs share: seeded numbers, cases spread over the processors, the last line
//! and, for the painters, the whole program.
pub mod command;
pub mod draw;
pub mod edges;
pub mod layers;
pub mod lend;
pub mod numbers;
pub mod painters;
pub mod record;
pub mod sorts;
pub mod straight;
pub mod tally;

use std::process::ExitCode;
use std::thread;

/// A count that is kept in parts.
pub trait Sum: Default + Send {
    fn add(&mut self, other: Self);
}

/// Runs the cases 0 to n - 1, a share on each processor.
pub fn over<T: Sum>(n: u64, case: impl Fn(u64, &mut T) + Sync) -> T {
    let threads = thread::available_parallelism().map_or(1, |n| n.get() as u64);
    let share = |k: u64| {
        let mut tally = T::default();
        for i in n * k / threads..n * (k + 1) / threads {
            case(i, &mut tally);
        }
        tally
    };
    let share = &share;
    let mut sum = T::default();
    thread::scope(|s| {
        let running: Vec<_> = (0..threads).map(|k| s.spawn(move || share(k))).collect();
        for part in running {
            sum.add(part.join().expect("a comparing thread panicked"));
        }
    });
    sum
}

/// Checks that hold, and checks that do not.
#[derive(Default)]
pub struct Verdict {
    passed: u32,
    failed: u32,
}

impl Verdict {
    pub fn check(&mut self, holds: bool) {
        if holds {
            self.passed += 1;
        } else {
            self.failed += 1;
        }
    }

    /// The last line of a comparison.
    pub fn say(self) -> ExitCode {
        println!("{} passed, {} failed", self.passed, self.failed);
        ExitCode::from((self.failed > 0) as u8)
    }
}
