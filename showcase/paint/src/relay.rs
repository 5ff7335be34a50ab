//! The private relay call: somebody at home, in front of a window, in a video call.
use crate::brush::{both, circle, ellipse, limb, mix, p, rgb, rrect, Board, P};
use crate::figure::{Figure, Hand};

pub fn paint() -> Board {
    let mut board = Board::new(336, 196, |q| mix(rgb(0xF2C891), rgb(0xD98F5B), q.y / 196.0));
    room(&mut board);
    let who = Figure {
        at: p(176.0, 106.0),
        scale: 0.56,
        skin: rgb(0x8A5A3C),
        hair: rgb(0x17110F),
        shirt: rgb(0x2E7D6B),
        long_hair: false,
    };
    who.body(&mut board);
    who.head(&mut board);
    who.arm(&mut board, p(-74.0, 52.0), p(-112.0, 140.0), p(-96.0, 44.0));
    who.hand(
        &mut board,
        &Hand {
            wrist: p(-96.0, 38.0),
            points: p(-0.12, -1.0),
            stretch: [0.9, 1.0, 0.12, 0.12, 1.0],
            spread: 0.5,
            thumb: 1.0,
        },
    );
    who.arm(&mut board, p(74.0, 52.0), p(110.0, 140.0), p(92.0, 70.0));
    who.hand(
        &mut board,
        &Hand {
            wrist: p(91.0, 64.0),
            points: p(-0.05, -1.0),
            stretch: [0.6, 1.0, 1.0, 0.1, 0.1],
            spread: 0.8,
            thumb: -1.0,
        },
    );
    controls(&mut board);
    board
}

fn room(board: &mut Board) {
    // A window with the evening in it, a plant, a shelf.
    board.fill(rrect(22.0, 18.0, 92.0, 104.0, 5.0), rgb(0xFFF4E2));
    let pane = |q: P| mix(rgb(0x6A86C8), rgb(0xF6B98A), (q.y - 24.0) / 92.0);
    for (x, y) in [(28.0, 24.0), (71.0, 24.0), (28.0, 73.0), (71.0, 73.0)] {
        board.paint(rrect(x, y, 37.0, 43.0, 2.0), pane, 1.0, 1.0);
    }
    board.fill(rrect(250.0, 62.0, 70.0, 6.0, 2.0), rgb(0x8A5632));
    for (i, (c, h)) in [
        (0x2E6F9E, 26.0),
        (0xB8433F, 30.0),
        (0xE2B04A, 22.0),
        (0x4F8F5B, 28.0),
    ]
    .into_iter()
    .enumerate()
    {
        board.fill(
            rrect(256.0 + 11.0 * i as f32, 62.0 - h, 9.0, h, 1.5),
            rgb(c),
        );
    }
    for (dx, dy) in [(-18.0, -34.0), (-6.0, -46.0), (8.0, -44.0), (20.0, -30.0)] {
        board.fill(
            limb(p(300.0, 150.0), p(300.0 + dx, 150.0 + dy), 3.0, 7.0),
            rgb(0x3E7B4A),
        );
    }
    board.fill(rrect(284.0, 146.0, 32.0, 34.0, 6.0), rgb(0xB5532F));
    board.paint(
        ellipse(176.0, 196.0, 190.0, 40.0),
        |_| rgb(0x6B3A22),
        40.0,
        0.5,
    );
}

/// The call's round buttons.
fn controls(board: &mut Board) {
    board.glaze(rrect(118.0, 164.0, 100.0, 26.0, 13.0), rgb(0x10151C), 0.72);
    for (x, c) in [(135.0, 0xE8EDF2), (168.0, 0xE04B3F), (201.0, 0xE8EDF2)] {
        board.fill(circle(x, 177.0, 9.0), rgb(c));
    }
    board.fill(
        limb(p(164.0, 177.0), p(172.0, 177.0), 2.0, 2.0),
        rgb(0xFFFFFF),
    );
    board.fill(rrect(131.0, 173.0, 6.0, 8.0, 1.5), rgb(0x39434E));
    board.fill(
        both(circle(201.0, 177.0, 4.5), circle(201.0, 177.0, 4.5)),
        rgb(0x39434E),
    );
}
