//! `mixer compare`: are two pictures equal, pixel by pixel?
use super::Command;
use crate::cli::args::Args;
use crate::cli::failure::Failure;
use crate::files;
use picture::Picture;

pub const COMMAND: Command = Command {
    name: "compare",
    summary: "compares two pictures pixel by pixel",
    help: include_str!("compare.help"),
    options: &[],
    run,
};

fn run(mut args: Args) -> Result<String, Failure> {
    let (a, b) = (
        args.plain("the first picture")?,
        args.plain("the second picture")?,
    );
    args.finish()?;
    files::apart(&[&a, &b], None)?;
    let (first, second) = (files::read_picture(&a)?, files::read_picture(&b)?);
    match difference(&first, &second) {
        None => Ok(format!("equal, {}x{}\n", first.width(), first.height())),
        Some(words) => Err(Failure::refused(words)),
    }
}

/// How two pictures differ; nothing where they are equal.
fn difference(a: &Picture, b: &Picture) -> Option<String> {
    let size = |p: &Picture| (p.width(), p.height());
    if size(a) != size(b) {
        let ((aw, ah), (bw, bh)) = (size(a), size(b));
        return Some(format!("the sizes differ: {aw}x{ah} and {bw}x{bh}"));
    }
    let pairs = a.pixels().iter().zip(b.pixels()).enumerate();
    let mut differing = pairs.filter(|(_, (p, q))| p != q);
    let (first, (p, q)) = differing.next()?;
    let (x, y) = (first % a.width() as usize, first / a.width() as usize);
    let count = 1 + differing.count();
    Some(format!(
        "{count} of {} pixels differ, the first at {x},{y}: #{p:06X} and #{q:06X}",
        a.pixels().len()
    ))
}

#[cfg(test)]
mod tests {
    use super::*;

    #[test]
    fn differences() {
        let picture = |w, h, pixels: &[u32]| Picture::new(w, h, pixels.to_vec()).unwrap();
        let a = picture(2, 2, &[1, 2, 3, 4]);
        assert_eq!(difference(&a, &a), None);
        let words = difference(&a, &picture(2, 2, &[1, 2, 7, 8])).unwrap();
        assert_eq!(
            words,
            "2 of 4 pixels differ, the first at 0,1: #000003 and #000007"
        );
        let words = difference(&a, &picture(4, 1, &[1, 2, 3, 4])).unwrap();
        assert_eq!(words, "the sizes differ: 2x2 and 4x1");
    }
}
