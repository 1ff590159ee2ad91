//! A word of a text: where it ends, a number, and how a bad one is shown.

/// The most characters of a bad word that are shown.
const SHOWN: usize = 40;

/// The words of a line: spaces and tabs part them.
pub fn split(line: &str) -> impl Iterator<Item = &str> {
    line.split([' ', '\t']).filter(|word| !word.is_empty())
}

/// A number: decimal, or hex after 0x. No sign, no more than 64 bits.
pub fn number(word: &str) -> Option<u64> {
    let (digits, radix) = match word.strip_prefix("0x") {
        Some(hex) => (hex, 16),
        None => (word, 10),
    };
    if !digits.chars().all(|digit| digit.is_digit(radix)) {
        return None;
    }
    u64::from_str_radix(digits, radix).ok()
}

/// The word as a terminal may show it, cut where it is long.
pub fn shown(word: &str) -> String {
    let start: String = word.chars().take(SHOWN).collect();
    let more = if start.len() < word.len() { ".." } else { "" };
    format!("{}{more}", start.escape_debug())
}

#[cfg(test)]
mod tests {
    use super::*;

    #[test]
    fn numbers_are_decimal_or_hex() {
        for (word, value) in [
            ("0", 0),
            ("007", 7),
            ("0x0", 0),
            ("0xfF", 255),
            ("18446744073709551615", u64::MAX),
        ] {
            assert_eq!(number(word), Some(value), "{word}");
        }
        for word in [
            "",
            "0x",
            "-1",
            "+1",
            "0x-1",
            "0X1",
            "1_0",
            "ff",
            "1.0",
            "18446744073709551616",
            "١",
        ] {
            assert_eq!(number(word), None, "{word}");
        }
    }

    #[test]
    fn a_bad_word_does_no_harm() {
        assert_eq!(shown("CLASSA_CTL"), "CLASSA_CTL");
        assert_eq!(shown("a\0\x1b[2J"), "a\\0\\u{1b}[2J");
        assert_eq!(shown(&"é".repeat(50)), "é".repeat(40) + "..");
    }
}
