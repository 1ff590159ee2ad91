//! Bytes as hex digits, two for each: what `raw` and `cut` take.
use std::fmt::Write;

pub fn words(bytes: &[u8]) -> String {
    bytes.iter().fold(String::new(), |mut text, byte| {
        // A string takes all that is written.
        let _ = write!(text, "{byte:02x}");
        text
    })
}

fn digit(digit: u8) -> Option<u8> {
    char::from(digit)
        .to_digit(16)
        .and_then(|d| u8::try_from(d).ok())
}

/// The bytes of whole pairs of digits, and of nothing else.
pub fn parse(word: &str) -> Option<Vec<u8>> {
    let pair = |pair: &[u8]| match pair {
        [high, low] => Some(digit(*high)? << 4 | digit(*low)?),
        _ => None,
    };
    word.as_bytes().chunks(2).map(pair).collect()
}

#[cfg(test)]
mod tests {
    use super::*;

    #[test]
    fn bytes_go_both_ways() {
        let all: Vec<u8> = (0..=255).collect();
        assert_eq!(parse(&words(&all)), Some(all));
        assert_eq!(words(&[0, 0x5A, 255]), "005aff");
        assert_eq!(parse("5AfF"), Some(vec![0x5A, 255]));
        assert_eq!(parse(""), Some(vec![]));
    }

    #[test]
    fn other_words_give_none() {
        for word in ["0", "123", "0x", "g0", "-1", "+1", "é", "5a "] {
            assert_eq!(parse(word), None, "{word}");
        }
    }
}
