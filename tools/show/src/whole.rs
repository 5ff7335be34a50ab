//! Whole numbers.

/// The whole number of a word, which has to lie between two others.
pub fn read(word: &str, least: i64, most: i64) -> Result<i64, String> {
    let found = word.parse().ok();
    let expected = || format!("expected a whole number from {least} to {most}, found `{word}`");
    found
        .filter(|n| (least..=most).contains(n))
        .ok_or_else(expected)
}

#[cfg(test)]
mod tests {
    use super::*;

    #[test]
    fn numbers_have_to_fit() {
        assert_eq!(read("255", 0, 255), Ok(255));
        assert_eq!(read("-7", -16384, 16384), Ok(-7));
        for word in ["256", "-1", "1.5", "x", "", "99999999999999999999"] {
            let words = format!("expected a whole number from 0 to 255, found `{word}`");
            assert_eq!(read(word, 0, 255), Err(words));
        }
    }
}
