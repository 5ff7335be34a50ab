//! How wide the terminal is.
use std::env;
use std::ffi::{c_int, c_ulong};

/// The columns that the environment's `COLUMNS` says, or that the terminal on standard output has; nothing where
/// there is none.
pub fn columns() -> Option<usize> {
    let said = env::var("COLUMNS").ok().and_then(|word| word.parse().ok());
    said.or_else(of_standard_output)
        .filter(|columns| *columns > 0)
}

/// `struct winsize`.
#[repr(C)]
#[derive(Default)]
struct Winsize {
    rows: u16,
    columns: u16,
    x_pixels: u16,
    y_pixels: u16,
}

extern "C" {
    fn ioctl(file: c_int, request: c_ulong, ...) -> c_int;
}

const STANDARD_OUTPUT: c_int = 1;
const TIOCGWINSZ: c_ulong = 0x5413; // Linux, for which the library is made

fn of_standard_output() -> Option<usize> {
    let mut size = Winsize::default();
    // SAFETY: this request writes one `struct winsize` through its pointer, which is to one of ours, lent until the
    // call returns; on what is no terminal it writes nothing and answers -1.
    let answer = unsafe { ioctl(STANDARD_OUTPUT, TIOCGWINSZ, &mut size as *mut Winsize) };
    (answer == 0).then_some(size.columns.into())
}
