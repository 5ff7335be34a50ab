//! The interpreter: plain ground, dark shirt, both hands well apart.
use crate::brush::{mix, p, rgb, Board};
use crate::figure::{Figure, Hand};

pub fn paint() -> Board {
    let mut board = Board::new(312, 440, |q| mix(rgb(0xE4ECF2), rgb(0xAFC3D2), q.y / 440.0));
    let who = Figure {
        at: p(156.0, 196.0),
        scale: 1.0,
        skin: rgb(0xE3AE87),
        hair: rgb(0x3B2620),
        shirt: rgb(0x22304A),
        long_hair: true,
    };
    who.shadow(&mut board, 0.16);
    who.body(&mut board);
    who.head(&mut board);
    // One hand points up beside the face, the other is open before the chest.
    who.arm(&mut board, p(-74.0, 52.0), p(-100.0, 150.0), p(-86.0, 40.0));
    who.hand(
        &mut board,
        &Hand {
            wrist: p(-86.0, 36.0),
            points: p(0.10, -1.0),
            stretch: [0.25, 1.0, 0.12, 0.10, 0.08],
            spread: 0.2,
            thumb: 1.0,
        },
    );
    who.arm(&mut board, p(74.0, 52.0), p(98.0, 158.0), p(52.0, 112.0));
    who.hand(
        &mut board,
        &Hand {
            wrist: p(49.0, 108.0),
            points: p(-0.42, -1.0),
            stretch: [0.9, 1.0, 1.0, 1.0, 1.0],
            spread: 0.75,
            thumb: -1.0,
        },
    );
    board
}
