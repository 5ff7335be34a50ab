//! The passes of an interlaced file.

/// The pixels of a pass: the first, and the steps to the next.
pub struct Pass {
    x: usize,
    y: usize,
    right: usize,
    down: usize,
}

const fn pass(x: usize, y: usize, right: usize, down: usize) -> Pass {
    Pass { x, y, right, down }
}

/// Every pixel, as in a file that is not interlaced.
pub const WHOLE: Pass = pass(0, 0, 1, 1);

/// The seven passes of Adam7.
pub const PASSES: [Pass; 7] = [
    pass(0, 0, 8, 8),
    pass(4, 0, 8, 8),
    pass(0, 4, 4, 8),
    pass(2, 0, 4, 4),
    pass(0, 2, 2, 4),
    pass(1, 0, 2, 2),
    pass(0, 1, 1, 2),
];

impl Pass {
    /// Its rows in a picture of that size, each with its columns. A pass without columns has no rows.
    pub fn rows(&self, width: usize, height: usize) -> Vec<(usize, Vec<usize>)> {
        let columns: Vec<usize> = (self.x..width).step_by(self.right).collect();
        let rows = (self.y..height).step_by(self.down);
        rows.filter(|_| !columns.is_empty())
            .map(|y| (y, columns.clone()))
            .collect()
    }
}
