//! Paints the showcase's sources into a folder.
mod brush;
mod captions;
mod figure;
mod interpreter;
mod letters;
mod relay;
mod studio;

use std::path::Path;
use std::process::ExitCode;

type Painter = fn() -> brush::Board;

fn main() -> ExitCode {
    let Some(folder) = std::env::args_os().nth(1) else {
        eprintln!("usage: paint FOLDER");
        return ExitCode::from(2);
    };
    let boards: [(&str, Painter); 6] = [
        ("studio.png", studio::paint),
        ("interpreter.png", interpreter::paint),
        ("relay.png", relay::paint),
        ("caption.png", captions::caption),
        ("label.png", captions::label),
        ("live.png", captions::live),
    ];
    for (name, paint) in boards {
        let path = Path::new(&folder).join(name);
        if let Err(error) = paint().picture().write(&path) {
            eprintln!("paint: {}: {error}", path.display());
            return ExitCode::FAILURE;
        }
    }
    ExitCode::SUCCESS
}
