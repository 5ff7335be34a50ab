//! Floats as words, both ways, so that no bit is lost.

/// The longest word that is written without an exponent.
const LONGEST: usize = 12;

/// A number in the shortest form that is read back to the same bits, -0 included. What is no finite number
/// is shown by its bits.
pub fn show(value: f32) -> String {
    if !value.is_finite() {
        return format!("0x{:08X}", value.to_bits());
    }
    let plain = value.to_string();
    match plain.len() > LONGEST {
        true => format!("{value:e}"),
        false => plain,
    }
}

/// The number of a word; nothing where it is none, or lies beyond all floats.
pub fn read(word: &str) -> Option<f32> {
    let plain = word
        .bytes()
        .all(|b| b.is_ascii_digit() || b"+-.eE".contains(&b));
    let value: f32 = word.parse().ok().filter(|_| plain)?;
    value.is_finite().then_some(value)
}

/// The number with these bits, `0x` and eight digits.
pub fn of_bits(word: &str) -> Option<f32> {
    let digits = word.strip_prefix("0x")?;
    let plain = digits.len() == 8 && digits.bytes().all(|b| b.is_ascii_hexdigit());
    let bits = u32::from_str_radix(digits, 16).ok().filter(|_| plain)?;
    Some(f32::from_bits(bits))
}

#[cfg(test)]
mod tests {
    use super::*;

    #[test]
    fn shortest_words() {
        for (value, word) in [
            (0.0, "0"),
            (-0.0, "-0"),
            (16384.0, "16384"),
            (0.05, "0.05"),
            (-1.5, "-1.5"),
            (f32::from_bits(1), "1e-45"),
            (f32::INFINITY, "0x7F800000"),
            (f32::from_bits(0xFFA0_0001), "0xFFA00001"),
        ] {
            assert_eq!(show(value), word);
            let back = read(word).or_else(|| of_bits(word)).unwrap();
            assert_eq!(back.to_bits(), value.to_bits(), "{word}");
        }
    }

    #[test]
    fn every_pattern_of_bits_is_read_back() {
        // Steps of a large odd number meet every exponent, both signs, and NaNs.
        for i in 0..200_000_u32 {
            let value = f32::from_bits(i.wrapping_mul(2_654_435_761));
            let word = show(value);
            let back = read(&word).or_else(|| of_bits(&word)).unwrap();
            assert_eq!(back.to_bits(), value.to_bits(), "{word}");
        }
    }

    #[test]
    fn what_is_no_number() {
        for word in ["", "-", "nan", "inf", "1,5", "0x10", "1e39", "1_000", "e3"] {
            assert_eq!(read(word), None, "{word}");
        }
        for word in [
            "",
            "0x",
            "0x7F80000",
            "0x7F8000000",
            "7F800000",
            "0x+F800000",
        ] {
            assert_eq!(of_bits(word), None, "{word}");
        }
    }
}
