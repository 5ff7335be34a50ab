//! What is being done, on a terminal, once it takes a while.
use std::io::{self, IsTerminal, Write};
use std::sync::mpsc::{channel, RecvTimeoutError, Sender};
use std::thread::{self, JoinHandle};
use std::time::{Duration, Instant};

/// How long a step may take before it is mentioned.
const PATIENCE: Duration = Duration::from_millis(300);
const TICK: Duration = Duration::from_millis(100);

/// A step of the work. As long as it is held its name stands on the terminal, with the seconds.
/// Where standard error is no terminal nothing is written.
pub struct Step {
    ticker: Option<(Sender<()>, JoinHandle<()>)>,
}

impl Step {
    pub fn new(name: impl Into<String>) -> Step {
        if !io::stderr().is_terminal() {
            return Step { ticker: None };
        }
        let name = name.into();
        let (done, finished) = channel();
        let thread = thread::spawn(move || {
            let start = Instant::now();
            let mut wait = PATIENCE;
            let mut shown = false;
            while finished.recv_timeout(wait) == Err(RecvTimeoutError::Timeout) {
                let seconds = start.elapsed().as_secs_f32();
                show(&format!("\r\x1b[K{name} … {seconds:.1} s"));
                (wait, shown) = (TICK, true);
            }
            if shown {
                show("\r\x1b[K");
            }
        });
        Step {
            ticker: Some((done, thread)),
        }
    }
}

impl Drop for Step {
    fn drop(&mut self) {
        if let Some((done, thread)) = self.ticker.take() {
            drop(done);
            // A thread that only writes to a terminal has no result that matters.
            let _ = thread.join();
        }
    }
}

/// The terminal may be gone; the work goes on.
fn show(words: &str) {
    let mut err = io::stderr();
    let _ = err.write_all(words.as_bytes()).and_then(|()| err.flush());
}
