//! Pictures with letters: the ticker's caption, its label and the badge.
use crate::brush::{mix, p, rgb, Board, Rgb};
use crate::letters::{width, write, Style};

/// The line that runs through the ticker.
pub fn caption() -> Board {
    let text = "RIVER LEVELS FALL * TRAMS RUN AGAIN FROM SIX";
    strip(640, 48, text, 18.0, 0.42, [rgb(0x0E1B30), rgb(0x12233D)])
}

pub fn label() -> Board {
    strip(
        170,
        48,
        "BULLETIN",
        20.0,
        0.55,
        [rgb(0xE5484D), rgb(0xB4232B)],
    )
}

pub fn live() -> Board {
    strip(84, 36, "LIVE", 16.0, 0.58, [rgb(0xE5484D), rgb(0xC22F36)])
}

/// A strip with a line of white letters in its middle.
fn strip(w: u32, h: u32, text: &str, height: f32, weight: f32, ground: [Rgb; 2]) -> Board {
    let mut board = Board::new(w, h, |q| mix(ground[0], ground[1], q.y / h as f32));
    let style = Style {
        height,
        weight,
        colour: rgb(0xFFFFFF),
    };
    let at = p(
        (w as f32 - width(text, height)) / 2.0,
        (h as f32 - height) / 2.0,
    );
    write(&mut board, text, at, &style);
    board
}
