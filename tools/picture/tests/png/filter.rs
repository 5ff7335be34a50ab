//! The filters of a row: a byte is written as its difference from a guess.

/// The guess at a byte from those to its left, above it and above left.
pub type Guess = fn(i32, i32, i32) -> i32;

/// The five filters by their numbers.
pub const ALL: [Guess; 5] = [
    |_, _, _| 0,
    |left, _, _| left,
    |_, above, _| above,
    |left, above, _| (left + above) / 2,
    |left, above, corner| nearest(left + above - corner, [left, above, corner]),
];

/// The first of those that are nearest to a number.
fn nearest(to: i32, of: [i32; 3]) -> i32 {
    let [a, b, c] = of;
    let first = |x: i32, y: i32| {
        if (to - y).abs() < (to - x).abs() {
            y
        } else {
            x
        }
    };
    first(first(a, b), c)
}

/// A row of pixels of so many bytes each, filtered.
pub fn filtered(guess: Guess, row: &[u8], above: &[u8], each: usize) -> Vec<u8> {
    let at = |bytes: &[u8], i: Option<usize>| i.map_or(0, |i| i32::from(bytes[i]));
    let byte = |i: usize| {
        let left = i.checked_sub(each);
        let guess = guess(at(row, left), at(above, Some(i)), at(above, left));
        (i32::from(row[i]) - guess) as u8
    };
    (0..row.len()).map(byte).collect()
}
