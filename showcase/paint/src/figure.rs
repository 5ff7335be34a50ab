//! A person who signs, from the waist up. Measures are in steps of which a head has about a hundred;
//! the origin is the pit of the neck.
use crate::brush::{both, circle, ellipse, join, limb, mix, p, rgb, rrect, side, Board, Rgb, P};

pub struct Figure {
    /// Where the pit of the neck stands on the board.
    pub at: P,
    /// Pixels to a step.
    pub scale: f32,
    pub skin: Rgb,
    pub hair: Rgb,
    pub shirt: Rgb,
    /// Whether the hair falls to the shoulders.
    pub long_hair: bool,
}

/// A hand: where its wrist is, where its fingers point, how long each finger is stretched (thumb first,
/// 0 curled to 1 straight), how far the fingers spread, and on which side the thumb is (1 or −1).
pub struct Hand {
    pub wrist: P,
    pub points: P,
    pub stretch: [f32; 5],
    pub spread: f32,
    pub thumb: f32,
}

impl Figure {
    fn place(&self, x: f32, y: f32) -> P {
        p(self.at.x + x * self.scale, self.at.y + y * self.scale)
    }

    fn shade(&self) -> Rgb {
        mix(self.skin, rgb(0x3A1C14), 0.28)
    }

    fn limb(&self, a: P, b: P, ra: f32, rb: f32) -> impl Fn(P) -> f32 + Copy {
        let s = self.scale;
        limb(self.place(a.x, a.y), self.place(b.x, b.y), ra * s, rb * s)
    }

    fn ellipse(&self, x: f32, y: f32, rx: f32, ry: f32) -> impl Fn(P) -> f32 + Copy {
        let c = self.place(x, y);
        ellipse(c.x, c.y, rx * self.scale, ry * self.scale)
    }

    /// Shoulders, chest and neck.
    pub fn body(&self, board: &mut Board) {
        let s = self.scale;
        if self.long_hair {
            let c = self.place(-52.0, -110.0);
            board.fill(
                rrect(c.x, c.y, 104.0 * s, 132.0 * s, 46.0 * s),
                mix(self.hair, rgb(0), 0.25),
            );
        }
        board.fill(
            self.limb(p(0.0, -40.0), p(0.0, 14.0), 21.0, 23.0),
            self.shade(),
        );
        let chest = self.place(-88.0, 40.0);
        let chest = rrect(chest.x, chest.y, 176.0 * s, 500.0 * s, 30.0 * s);
        let shoulders = self.limb(p(-66.0, 44.0), p(66.0, 44.0), 34.0, 34.0);
        let slope = self.limb(p(0.0, 16.0), p(0.0, 40.0), 26.0, 60.0);
        let torso = join(join(chest, shoulders, 30.0 * s), slope, 40.0 * s);
        let (top, low) = (self.place(0.0, 0.0).y, self.place(0.0, 300.0).y);
        let cloth = |q: P| {
            mix(
                mix(self.shirt, rgb(0xFFFFFF), 0.07),
                mix(self.shirt, rgb(0), 0.25),
                (q.y - top) / (low - top),
            )
        };
        board.paint(torso, cloth, 1.0, 1.0);
        // The neckline: skin, and the shirt's darker edge around it.
        board.fill(
            both(self.ellipse(0.0, 2.0, 31.0, 27.0), torso),
            mix(self.shirt, rgb(0), 0.35),
        );
        board.fill(
            both(
                self.ellipse(0.0, 0.0, 27.0, 23.0),
                self.limb(p(0.0, -30.0), p(0.0, 30.0), 30.0, 30.0),
            ),
            self.skin,
        );
        board.fill(self.limb(p(0.0, -40.0), p(0.0, 6.0), 20.0, 20.0), self.skin);
        // The chin's shadow.
        let neck = self.limb(p(0.0, -40.0), p(0.0, 6.0), 20.0, 20.0);
        board.glaze(
            both(neck, self.ellipse(0.0, -34.0, 36.0, 26.0)),
            self.shade(),
            0.8,
        );
    }

    pub fn head(&self, board: &mut Board) {
        let (dark, skin) = (mix(self.hair, rgb(0), 0.15), self.skin);
        board.fill(self.ellipse(0.0, -84.0, 49.0, 58.0), self.hair);
        for x in [-43.0, 43.0] {
            board.fill(self.ellipse(x, -66.0, 8.0, 13.0), self.shade());
        }
        let face = join(
            self.ellipse(0.0, -76.0, 42.0, 48.0),
            self.ellipse(0.0, -52.0, 31.0, 36.0),
            20.0 * self.scale,
        );
        board.fill(face, skin);
        board.paint(
            both(face, self.ellipse(40.0, -40.0, 46.0, 66.0)),
            |_| self.shade(),
            18.0 * self.scale,
            0.35,
        );
        // The fringe, parted on one side.
        let cap = self.ellipse(0.0, -86.0, 48.0, 56.0);
        let (a, b, c) = (
            self.place(-52.0, -78.0),
            self.place(18.0, -112.0),
            self.place(52.0, -84.0),
        );
        board.fill(both(cap, side(b, a)), dark);
        board.fill(both(both(cap, side(c, b)), side(a, b)), dark);
        self.face(board);
    }

    fn face(&self, board: &mut Board) {
        let (dark, shade) = (rgb(0x2A1B18), self.shade());
        for x in [-17.0, 17.0] {
            board.fill(self.ellipse(x, -72.0, 7.5, 5.0), rgb(0xF7F3EE));
            board.fill(self.ellipse(x, -72.0, 4.0, 4.6), dark);
            // Brows that fall outwards a little look friendly.
            let out = if x < 0.0 { -1.0 } else { 1.0 };
            let (inner, outer) = (p(x - out * 8.5, -84.4), p(x + out * 9.5, -83.6));
            let top = p(x + out * 1.5, -87.4);
            for (from, to) in [(inner, top), (top, outer)] {
                board.fill(self.limb(from, to, 1.6, 1.6), mix(self.hair, dark, 0.5));
            }
        }
        board.glaze(
            self.limb(p(2.0, -66.0), p(4.0, -54.0), 2.0, 3.6),
            shade,
            0.6,
        );
        // A smile: the lower half of an ellipse, the teeth in its upper part.
        let (left, right) = (self.place(-20.0, -43.0), self.place(20.0, -43.0));
        let lips = both(self.ellipse(0.0, -43.0, 15.0, 12.0), side(left, right));
        board.fill(lips, rgb(0x8E3437));
        board.fill(
            both(lips, self.ellipse(0.0, -45.5, 13.0, 7.5)),
            rgb(0xFBF4EE),
        );
    }

    /// An arm in its sleeve, from the shoulder over the elbow to the wrist.
    pub fn arm(&self, board: &mut Board, shoulder: P, elbow: P, wrist: P) {
        let dark = mix(self.shirt, rgb(0), 0.32);
        let light = mix(self.shirt, rgb(0xFFFFFF), 0.10);
        let cuff = elbow.toward(wrist, 0.62);
        let upper = self.limb(shoulder, elbow, 29.0, 22.0);
        let lower = self.limb(elbow, cuff, 22.0, 17.5);
        let sleeve = join(upper, lower, 14.0 * self.scale);
        board.fill(self.limb(cuff, wrist, 15.5, 13.0), self.shade());
        board.fill(self.limb(cuff, wrist, 14.0, 11.8), self.skin);
        board.paint(|q| sleeve(q) - 1.6 * self.scale, |_| dark, 1.0, 1.0);
        board.fill(sleeve, light);
    }

    pub fn hand(&self, board: &mut Board, hand: &Hand) {
        let length = hand.points.length();
        let d = p(hand.points.x / length, hand.points.y / length);
        // Across the palm, toward the thumb.
        let n = p(-d.y * hand.thumb, d.x * hand.thumb);
        let at = |along: f32, across: f32| {
            let w = hand.wrist;
            p(
                w.x + d.x * along + n.x * across,
                w.y + d.y * along + n.y * across,
            )
        };
        let palm = join(
            self.limb(at(12.0, 6.0), at(36.0, 11.0), 11.0, 11.0),
            self.limb(at(10.0, -5.0), at(34.0, -12.0), 11.0, 10.5),
            16.0 * self.scale,
        );
        let line = 1.6;
        let finger = |board: &mut Board, a: P, b: P, r: f32| {
            board.fill(self.limb(a, b, r + line, r - 0.6 + line), self.shade());
            board.fill(self.limb(a, b, r, r - 0.6), self.skin);
        };
        let thumb = hand.stretch[0];
        finger(
            board,
            at(14.0, 12.0),
            at(22.0 + 16.0 * thumb, 20.0 + 20.0 * thumb),
            7.4,
        );
        board.fill(|q| palm(q) - line * self.scale, self.shade());
        for (i, reach) in [44.0, 49.0, 45.0, 35.0].into_iter().enumerate() {
            let across = 15.5 - 10.4 * i as f32;
            let tip = 6.0 + reach * hand.stretch[i + 1];
            let fan = (1.5 - i as f32) * hand.spread * hand.stretch[i + 1];
            finger(
                board,
                at(40.0, across),
                at(40.0 + tip, across + fan * 14.0),
                6.2,
            );
        }
        board.fill(palm, self.skin);
        board.fill(
            self.limb(
                at(16.0, 12.0),
                at(22.0 + 8.0 * thumb, 19.0 + 8.0 * thumb),
                7.4,
                7.2,
            ),
            self.skin,
        );
        board.glaze(
            self.limb(at(20.0, 2.0), at(30.0, -14.0), 1.2, 1.2),
            self.shade(),
            0.6,
        );
    }

    /// A soft shadow behind the person.
    pub fn shadow(&self, board: &mut Board, opacity: f32) {
        let c = self.place(14.0, -60.0);
        let soft = 70.0 * self.scale;
        board.paint(
            circle(c.x, c.y, 70.0 * self.scale),
            |_| rgb(0x0A1420),
            soft,
            opacity,
        );
        let b = self.place(-100.0, 40.0);
        let body = rrect(
            b.x,
            b.y,
            240.0 * self.scale,
            500.0 * self.scale,
            80.0 * self.scale,
        );
        board.paint(body, |_| rgb(0x0A1420), soft, opacity);
    }
}
