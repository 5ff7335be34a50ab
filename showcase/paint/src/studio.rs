//! The programme picture: a newsreader at a desk, and a screen with a river in the evening.
use crate::brush::{both, circle, ellipse, limb, mix, p, rgb, rrect, side, Board, P};
use crate::figure::{Figure, Hand};

pub fn paint() -> Board {
    let mut board = Board::new(1280, 720, |q| {
        mix(rgb(0x0C1C3A), rgb(0x24507E), q.y / 560.0)
    });
    wall(&mut board);
    screen(&mut board);
    reader(&mut board);
    desk(&mut board);
    board
}

/// Panels of light on the wall.
fn wall(board: &mut Board) {
    for i in 0..9 {
        let x = -40.0 + 160.0 * i as f32;
        let glow = |q: P| mix(rgb(0x6FB4E8), rgb(0x1A3A66), q.y / 620.0);
        board.paint(rrect(x, -40.0, 84.0, 640.0, 18.0), glow, 1.0, 0.16);
        board.paint(
            rrect(x + 98.0, -20.0, 5.0, 600.0, 2.5),
            |_| rgb(0x8FD0FF),
            1.0,
            0.35,
        );
    }
    board.paint(
        ellipse(700.0, 250.0, 420.0, 260.0),
        |_| rgb(0x7FC4FF),
        260.0,
        0.20,
    );
    let floor = |q: P| mix(rgb(0x2A4F80), rgb(0x13264A), (q.y - 560.0) / 160.0);
    board.paint(rrect(-20.0, 560.0, 1320.0, 200.0, 0.0), floor, 1.0, 1.0);
    // Lamps behind the desk, mirrored in the floor.
    let lamps = [
        (70.0, 0xFF9F5A),
        (230.0, 0x59C3FF),
        (350.0, 0xB58CFF),
        (1090.0, 0x59C3FF),
        (1220.0, 0xFF9F5A),
    ];
    for (x, c) in lamps {
        board.paint(ellipse(x, 640.0, 60.0, 84.0), |_| rgb(c), 90.0, 0.55);
        board.paint(
            limb(p(x - 26.0, 566.0), p(x + 26.0, 566.0), 4.0, 4.0),
            |_| rgb(c),
            3.0,
            0.9,
        );
    }
}

fn screen(board: &mut Board) {
    let (x, y, w, h) = (96.0, 84.0, 470.0, 300.0);
    board.paint(
        rrect(x - 4.0, y + 14.0, w + 8.0, h + 8.0, 20.0),
        |_| rgb(0x04101F),
        44.0,
        0.65,
    );
    board.fill(
        rrect(x - 7.0, y - 7.0, w + 14.0, h + 14.0, 19.0),
        rgb(0xC9DDEE),
    );
    board.fill(
        rrect(x - 4.0, y - 4.0, w + 8.0, h + 8.0, 16.0),
        rgb(0x0B1626),
    );
    let glass = rrect(x, y, w, h, 12.0);
    board.paint(
        glass,
        |q| mix(rgb(0x3A4C8C), rgb(0xF7A25C), (q.y - y) / 190.0),
        1.0,
        1.0,
    );
    board.paint(
        both(glass, circle(x + 330.0, y + 142.0, 34.0)),
        |_| rgb(0xFFE3A3),
        3.0,
        1.0,
    );
    let hills = [
        (90.0, 236.0, 190.0, 104.0, 0x7A5B86),
        (330.0, 250.0, 220.0, 96.0, 0x684E7C),
        (470.0, 240.0, 120.0, 84.0, 0x574371),
    ];
    for (cx, cy, rx, ry, c) in hills {
        board.fill(both(glass, ellipse(x + cx, y + cy, rx, ry)), rgb(c));
    }
    town(board, glass, x, y);
    let water = both(glass, side(p(x, y + 206.0), p(x + w, y + 206.0)));
    board.paint(
        water,
        |q| mix(rgb(0xE08E5E), rgb(0x2C3A6E), (q.y - y - 206.0) / 94.0),
        1.0,
        1.0,
    );
    for (i, cx) in [330.0, 322.0, 338.0, 326.0, 334.0].into_iter().enumerate() {
        let (yy, half) = (y + 216.0 + 15.0 * i as f32, 40.0 - 5.0 * i as f32);
        board.glaze(
            limb(p(x + cx - half, yy), p(x + cx + half, yy), 2.2, 2.2),
            rgb(0xFFE3A3),
            0.75,
        );
    }
    bridge(board, x, y);
    // A reflection over the screen's corner.
    let shine = both(glass, side(p(x + 150.0, y), p(x + 20.0, y + 300.0)));
    board.glaze(shine, rgb(0xFFFFFF), 0.06);
}

/// A row of houses at the water.
fn town(board: &mut Board, glass: impl Fn(P) -> f32 + Copy, x: f32, y: f32) {
    let houses = [
        (10.0, 44.0),
        (38.0, 66.0),
        (70.0, 38.0),
        (96.0, 82.0),
        (126.0, 52.0),
        (392.0, 46.0),
        (420.0, 70.0),
        (446.0, 54.0),
    ];
    for (i, (left, tall)) in houses.into_iter().enumerate() {
        let top = y + 206.0 - tall;
        board.fill(
            both(glass, rrect(x + left, top, 27.0, tall + 2.0, 2.0)),
            rgb(0x33305A),
        );
        for k in 0..(tall as usize / 16) {
            let lit = if (i + k) % 3 == 0 { 0xFFD98A } else { 0x57508A };
            let yy = top + 7.0 + 15.0 * k as f32;
            board.fill(rrect(x + left + 5.0, yy, 6.0, 8.0, 1.0), rgb(lit));
            board.fill(
                rrect(x + left + 16.0, yy, 6.0, 8.0, 1.0),
                rgb(if lit == 0xFFD98A { 0x57508A } else { 0xFFD98A }),
            );
        }
    }
}

fn bridge(board: &mut Board, x: f32, y: f32) {
    let stone = rgb(0x2A274C);
    board.fill(
        limb(p(x + 150.0, y + 196.0), p(x + 396.0, y + 196.0), 4.5, 4.5),
        stone,
    );
    for cx in [190.0, 256.0, 322.0, 372.0] {
        board.fill(rrect(x + cx - 4.0, y + 196.0, 8.0, 34.0, 2.0), stone);
    }
}

fn reader(board: &mut Board) {
    let who = Figure {
        at: p(716.0, 362.0),
        scale: 1.22,
        skin: rgb(0xC98B62),
        hair: rgb(0x1F1A1C),
        shirt: rgb(0x8A2F3C),
        long_hair: false,
    };
    who.shadow(board, 0.30);
    who.body(board);
    who.head(board);
    who.arm(board, p(-74.0, 52.0), p(-104.0, 150.0), p(-34.0, 166.0));
    who.arm(board, p(74.0, 52.0), p(104.0, 150.0), p(34.0, 166.0));
    let rest = |wrist: P, points: P, thumb: f32| Hand {
        wrist,
        points,
        stretch: [0.2, 0.55, 0.55, 0.5, 0.45],
        spread: 0.1,
        thumb,
    };
    who.hand(board, &rest(p(30.0, 166.0), p(-1.0, -0.05), -1.0));
    who.hand(board, &rest(p(-30.0, 168.0), p(1.0, 0.02), 1.0));
}

fn desk(board: &mut Board) {
    board.paint(
        ellipse(716.0, 716.0, 560.0, 110.0),
        |_| rgb(0x020814),
        120.0,
        0.45,
    );
    let top = rrect(400.0, 566.0, 640.0, 28.0, 14.0);
    let front = rrect(424.0, 584.0, 592.0, 260.0, 30.0);
    board.paint(
        front,
        |q| mix(rgb(0x4A76B0), rgb(0x1C3358), (q.y - 584.0) / 136.0),
        1.0,
        1.0,
    );
    for i in 0..5 {
        let x = 452.0 + 110.0 * i as f32;
        let glow = |q: P| mix(rgb(0xBFE6FF), rgb(0x3D78B8), (q.y - 600.0) / 120.0);
        board.paint(rrect(x, 606.0, 92.0, 200.0, 12.0), glow, 1.0, 0.55);
    }
    board.paint(
        top,
        |q| mix(rgb(0xF3F8FC), rgb(0xA9BED4), (q.y - 566.0) / 28.0),
        1.0,
        1.0,
    );
    board.paint(
        rrect(430.0, 592.0, 580.0, 5.0, 2.5),
        |_| rgb(0x59C3FF),
        2.0,
        0.9,
    );
    // Papers and a cup.
    board.fill(rrect(786.0, 558.0, 96.0, 8.0, 2.0), rgb(0xFFFFFF));
    board.fill(rrect(792.0, 554.0, 92.0, 5.0, 2.0), rgb(0xD5DEE8));
    board.fill(rrect(490.0, 534.0, 30.0, 34.0, 7.0), rgb(0x2FA39A));
    board.fill(
        both(circle(488.0, 550.0, 11.0), |q| {
            6.0 - circle(488.0, 550.0, 0.0)(q)
        }),
        rgb(0x2FA39A),
    );
}
