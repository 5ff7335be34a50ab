//! Letters as strokes on a grid of 4 by 6: `M` begins a stroke, `L` goes straight, `Q` bends over a point.
use crate::brush::{limb, p, Board, Rgb, P};

const GLYPHS: &[(char, f32, &str)] = &[
    ('A', 4.0, "M 0 6 L 2 0 L 4 6 M 0.7 4 L 3.3 4"),
    ('B', 3.6, "M 0 0 L 0 6 L 2 6 Q 3.6 6 3.6 4.4 Q 3.6 2.9 2 2.9 L 0 2.9 M 0 0 L 1.8 0 Q 3.3 0 3.3 1.45 Q 3.3 2.9 1.8 2.9"),
    ('C', 3.8, "M 3.8 1.2 Q 3.2 0 2 0 Q 0 0 0 3 Q 0 6 2 6 Q 3.2 6 3.8 4.8"),
    ('D', 3.8, "M 0 0 L 0 6 L 1.4 6 Q 3.8 6 3.8 3 Q 3.8 0 1.4 0 L 0 0"),
    ('E', 3.2, "M 3.2 0 L 0 0 L 0 6 L 3.2 6 M 0 2.9 L 2.7 2.9"),
    ('F', 3.2, "M 3.2 0 L 0 0 L 0 6 M 0 2.9 L 2.7 2.9"),
    ('G', 3.9, "M 3.8 1.2 Q 3.2 0 2 0 Q 0 0 0 3 Q 0 6 2 6 Q 3.9 6 3.9 3.3 L 2.2 3.3"),
    ('H', 3.7, "M 0 0 L 0 6 M 3.7 0 L 3.7 6 M 0 2.9 L 3.7 2.9"),
    ('I', 0.0, "M 0 0 L 0 6"),
    ('L', 3.0, "M 0 0 L 0 6 L 3 6"),
    ('M', 4.6, "M 0 6 L 0 0 L 2.3 3.8 L 4.6 0 L 4.6 6"),
    ('N', 3.8, "M 0 6 L 0 0 L 3.8 6 L 3.8 0"),
    ('O', 4.0, "M 2 0 Q 4 0 4 3 Q 4 6 2 6 Q 0 6 0 3 Q 0 0 2 0"),
    ('P', 3.5, "M 0 6 L 0 0 L 1.9 0 Q 3.5 0 3.5 1.6 Q 3.5 3.2 1.9 3.2 L 0 3.2"),
    ('R', 3.6, "M 0 6 L 0 0 L 1.9 0 Q 3.5 0 3.5 1.6 Q 3.5 3.2 1.9 3.2 L 0 3.2 M 1.9 3.2 L 3.6 6"),
    ('S', 3.5, "M 3.4 1.1 Q 3 0 1.8 0 Q 0.2 0 0.2 1.5 Q 0.2 2.6 1.8 2.95 Q 3.5 3.3 3.5 4.5 Q 3.5 6 1.8 6 Q 0.4 6 0 4.8"),
    ('T', 3.6, "M 0 0 L 3.6 0 M 1.8 0 L 1.8 6"),
    ('U', 3.7, "M 0 0 L 0 4 Q 0 6 1.85 6 Q 3.7 6 3.7 4 L 3.7 0"),
    ('V', 4.0, "M 0 0 L 2 6 L 4 0"),
    ('X', 3.8, "M 0 0 L 3.8 6 M 3.8 0 L 0 6"),
    ('Y', 3.8, "M 0 0 L 1.9 3 L 3.8 0 M 1.9 3 L 1.9 6"),
    ('0', 3.6, "M 1.8 0 Q 3.6 0 3.6 3 Q 3.6 6 1.8 6 Q 0 6 0 3 Q 0 0 1.8 0"),
    ('1', 1.4, "M 0 1.3 L 1.4 0 L 1.4 6"),
    ('8', 3.5, "M 1.75 2.9 Q 0.2 2.9 0.2 1.45 Q 0.2 0 1.75 0 Q 3.3 0 3.3 1.45 Q 3.3 2.9 1.75 2.9 Q 0 2.9 0 4.45 Q 0 6 1.75 6 Q 3.5 6 3.5 4.45 Q 3.5 2.9 1.75 2.9"),
    (':', 0.0, "M 0 1.8 L 0 1.85 M 0 4.8 L 0 4.85"),
    ('*', 1.2, "M 0.6 3 L 0.61 3"),
    (' ', 1.2, ""),
];

/// Between two letters, in grid steps.
const GAP: f32 = 1.7;

/// Letters of one size, weight and colour.
pub struct Style {
    /// The height in pixels.
    pub height: f32,
    /// Half the width of a stroke, in grid steps.
    pub weight: f32,
    pub colour: Rgb,
}

fn glyph(letter: char) -> &'static (char, f32, &'static str) {
    let found = GLYPHS.iter().find(|(c, _, _)| *c == letter);
    found.unwrap_or_else(|| panic!("no strokes for {letter:?}"))
}

/// How wide a line is.
pub fn width(text: &str, height: f32) -> f32 {
    let steps: f32 = text.chars().map(|c| glyph(c).1 + GAP).sum();
    (steps - GAP) * height / 6.0
}

/// Writes a line with its upper left corner at `at`.
pub fn write(board: &mut Board, text: &str, at: P, style: &Style) {
    let scale = style.height / 6.0;
    let mut left = at.x;
    for letter in text.chars() {
        let (_, advance, strokes) = glyph(letter);
        let place = |q: P| p(left + q.x * scale, at.y + q.y * scale);
        let heavy = if letter == '*' { 1.7 } else { 1.0 };
        let lines = lines(strokes);
        let r = style.weight * heavy * scale;
        let distance = |q: P| {
            let near = |(a, b): &(P, P)| limb(place(*a), place(*b), r, r)(q);
            lines.iter().map(near).fold(1e9, f32::min)
        };
        // Most pixels are far from this letter.
        let (x0, x1) = (left - 4.0 * scale, left + (advance + 4.0) * scale);
        let shape = |q: P| {
            if q.x < x0 || q.x > x1 {
                1e9
            } else {
                distance(q)
            }
        };
        board.fill(shape, style.colour);
        left += (advance + GAP) * scale;
    }
}

/// The strokes as straight pieces.
fn lines(strokes: &str) -> Vec<(P, P)> {
    let mut words = strokes.split_whitespace();
    let mut all = Vec::new();
    let mut pen = p(0.0, 0.0);
    while let Some(step) = words.next() {
        let mut next = || {
            let mut number = || words.next().and_then(|w| w.parse().ok()).expect("a number");
            p(number(), number())
        };
        let first = next();
        match step {
            "M" => pen = first,
            "L" => {
                all.push((pen, first));
                pen = first;
            }
            _ => {
                let (start, end) = (pen, next());
                for i in 1..=8 {
                    let t = i as f32 / 8.0;
                    let to = start.toward(first, t).toward(first.toward(end, t), t);
                    all.push((pen, to));
                    pen = to;
                }
            }
        }
    }
    all
}
