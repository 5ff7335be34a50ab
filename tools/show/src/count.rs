//! Numbers of things.

/// `1 layer`, `2 layers`.
pub fn of(number: usize, thing: &str) -> String {
    let s = if number == 1 { "" } else { "s" };
    format!("{number} {thing}{s}")
}

#[cfg(test)]
mod tests {
    #[test]
    fn one_and_more() {
        assert_eq!(super::of(1, "layer"), "1 layer");
        assert_eq!(super::of(0, "layer"), "0 layers");
    }
}
