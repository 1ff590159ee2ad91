//! What the lines' receivers send back in a tick: `receive`, then `E=PQ` or `E-F=PQ` for the lines that are off rest, where P
//! is the positive wire, Q the negative one, and 01 is rest; `sound`: every line that `receive` does not name answers as a sound
//! receiver does, so that nobody has to count answers.
use super::word::{number, shown};
use handler::{Edition, LinePairs, LINES};
use std::fmt::Write;

/// Older editions hold neither.
fn held(edition: Edition, part: &str) -> Result<(), String> {
    match edition.has_receive() {
        true => Ok(()),
        false => Err(format!("edition {} has no {part}", edition.name())),
    }
}

fn line(word: &str, whole: &str) -> Result<usize, String> {
    let e =
        number(word).ok_or_else(|| format!("E=PQ or E-F=PQ is wanted, not {}", shown(whole)))?;
    let found = (0..LINES).find(|line| *line as u64 == e);
    found.ok_or_else(|| format!("no such line, 0 to 3: {}", shown(word)))
}

/// The lines of a word, and their pair.
fn run(word: &str) -> Result<(usize, usize, (u32, u32)), String> {
    let (lines, levels) = word.split_once('=').unwrap_or((word, ""));
    let (first, last) = lines.split_once('-').unwrap_or((lines, lines));
    let (first, last) = (line(first, word)?, line(last, word)?);
    let pair = match levels {
        "00" => (0, 0),
        "01" => (0, 1),
        "10" => (1, 0),
        "11" => (1, 1),
        _ => return Err(format!("=00, =01, =10 or =11 is wanted: {}", shown(word))),
    };
    match first > last {
        true => Err(format!("the range falls: {}", shown(word))),
        false => Ok((first, last, pair)),
    }
}

/// The pairs that the words after `receive` give, and the lines that they name, line 0 at the lowest bit.
pub fn parse(edition: Edition, words: &[&str]) -> Result<(LinePairs, u32), String> {
    held(edition, "receive")?;
    let (mut pairs, mut named) = (LinePairs::REST, 0);
    for word in words {
        let (first, last, (pos, neg)) = run(word)?;
        for e in first..=last {
            if named >> e & 1 == 1 {
                return Err(format!("line {e} is named twice"));
            }
            named |= 1 << e;
            pairs.pos = pairs.pos & !(1 << e) | pos << e;
            pairs.neg = pairs.neg & !(1 << e) | neg << e;
        }
    }
    match named {
        0 => Err("receive wants E=PQ or E-F=PQ".to_string()),
        _ => Ok((pairs, named)),
    }
}

/// `sound` stands alone.
pub fn parse_sound(edition: Edition, words: &[&str]) -> Result<(), String> {
    held(edition, "sound")?;
    match words.first() {
        None => Ok(()),
        Some(word) => Err(format!("unexpected: {}", shown(word))),
    }
}

/// A pair as a text has it.
pub fn levels((pos, neg): (bool, bool)) -> String {
    format!("{}{}", u8::from(pos), u8::from(neg))
}

/// The words of the pairs, with a space before each; nothing where all are at rest. Neighbours at the same levels are one range.
pub fn words(pairs: LinePairs) -> String {
    let mut text = String::new();
    let mut e = 0;
    while e < LINES {
        let first = e;
        let pair = pairs.pair(first);
        while e < LINES && pairs.pair(e) == pair {
            e += 1;
        }
        if pair == (false, true) {
            continue;
        }
        let start = if text.is_empty() { " receive" } else { "" };
        let range = match e - 1 - first {
            0 => String::new(),
            _ => format!("-{}", e - 1),
        };
        // A string takes all that is written.
        let _ = write!(text, "{start} {first}{range}={}", levels(pair));
    }
    text
}

#[cfg(test)]
mod tests {
    use super::*;

    fn parsed(text: &str) -> Result<(LinePairs, u32), String> {
        parse(
            Edition::NEWEST,
            &text.split_whitespace().collect::<Vec<_>>(),
        )
    }

    #[test]
    fn every_pair_goes_both_ways() {
        for byte in 0..=255 {
            let pairs = LinePairs::of_byte(byte);
            let text = words(pairs);
            match text.strip_prefix(" receive ") {
                Some(rest) => assert_eq!(parsed(rest).map(|(pairs, _)| pairs), Ok(pairs)),
                None => assert_eq!((text.as_str(), pairs), ("", LinePairs::REST)),
            }
        }
        assert_eq!(
            words(LinePairs {
                pos: 0b0111,
                neg: 0b0100
            }),
            " receive 0-1=10 2=11 3=00"
        );
        assert_eq!(parsed("3=11 0=01"), Ok((LinePairs { pos: 8, neg: 15 }, 9)));
    }

    #[test]
    fn bad_words_are_told() {
        for (text, problem) in [
            ("", "receive wants E=PQ or E-F=PQ"),
            ("x", "E=PQ or E-F=PQ is wanted, not x"),
            ("=10", "E=PQ or E-F=PQ is wanted, not =10"),
            ("4=10", "no such line, 0 to 3: 4"),
            ("0-9=10", "no such line, 0 to 3: 9"),
            ("1", "=00, =01, =10 or =11 is wanted: 1"),
            ("1=2", "=00, =01, =10 or =11 is wanted: 1=2"),
            ("3-1=10", "the range falls: 3-1=10"),
            ("0-3=01 2=10", "line 2 is named twice"),
        ] {
            assert_eq!(parsed(text), Err(problem.to_string()), "{text}");
        }
        let problem = Err("unexpected: 0".to_string());
        assert_eq!(parse_sound(Edition::NEWEST, &["0"]), problem);
        assert_eq!(parse_sound(Edition::NEWEST, &[]), Ok(()));
    }

    #[test]
    fn older_editions_have_neither() {
        for edition in [Edition::Alerts64, Edition::Alerts248, Edition::Pings] {
            let name = edition.name();
            let problem = format!("edition {name} has no receive");
            assert_eq!(parse(edition, &["0=10"]), Err(problem));
            let problem = format!("edition {name} has no sound");
            assert_eq!(parse_sound(edition, &[]), Err(problem));
        }
    }
}
