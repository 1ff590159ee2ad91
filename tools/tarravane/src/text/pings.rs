//! What the ping timer is given in a tick: `entropy WORD`, the word that may set its next turn, and in texts of the edition
//! `pings` `answers E ..`, the lines that answer their ping. A word of 0 and no answer have no words.
use super::word::{number, shown};
use handler::{Edition, LINES};
use std::fmt::Write;

/// Not every edition holds both.
fn held(holds: bool, edition: Edition, part: &str) -> Result<(), String> {
    match holds {
        true => Ok(()),
        false => Err(format!("edition {} has no {part}", edition.name())),
    }
}

/// The word after `entropy`.
pub fn parse_entropy(edition: Edition, words: &[&str]) -> Result<u32, String> {
    held(edition.has_timer(), edition, "entropy")?;
    let word = match *words {
        [word] => word,
        [] => return Err("entropy wants a word of 32 bits".to_string()),
        [_, more, ..] => return Err(format!("unexpected: {}", shown(more))),
    };
    number(word)
        .and_then(|n| u32::try_from(n).ok())
        .ok_or_else(|| format!("not a word of 32 bits: {}", shown(word)))
}

/// The lines after `answers`: line 0 is the lowest bit.
pub fn parse_answers(edition: Edition, words: &[&str]) -> Result<u32, String> {
    let holds = edition.has_timer() && !edition.has_receive();
    held(holds, edition, "answers")?;
    let mut all = 0;
    for word in words {
        let line = number(word).filter(|line| *line < LINES as u64);
        let bit = match line {
            Some(line) => 1 << line,
            None => return Err(format!("no such line, 0 to 3: {}", shown(word))),
        };
        if all & bit != 0 {
            return Err(format!("line {word} is named twice"));
        }
        all |= bit;
    }
    match all {
        0 => Err("answers wants lines, 0 to 3".to_string()),
        _ => Ok(all),
    }
}

/// The word in hex, which shows its parts: the wait in the last four digits, the alert in the two before.
pub fn entropy(word: u32) -> String {
    match word {
        0 => String::new(),
        _ => format!(" entropy {word:#x}"),
    }
}

/// Lines that answer; bits from 4 up are no lines.
pub fn answers(bits: u32) -> String {
    let mut text = String::new();
    for line in (0..LINES).filter(|line| bits >> line & 1 == 1) {
        let start = if text.is_empty() { " answers" } else { "" };
        // A string takes all that is written.
        let _ = write!(text, "{start} {line}");
    }
    text
}

#[cfg(test)]
mod tests {
    use super::*;

    fn split(text: &str) -> Vec<&str> {
        text.split_whitespace().collect()
    }

    #[test]
    fn words_go_both_ways() {
        for word in [1, 9, 0xFFFF, 0x30_0002, u32::MAX] {
            let text = entropy(word);
            let text = text.strip_prefix(" entropy ").expect("a word");
            assert_eq!(parse_entropy(Edition::NEWEST, &split(text)), Ok(word));
        }
        for lines in 1..16 {
            let text = answers(lines | 0xF0);
            let text = text.strip_prefix(" answers ").expect("lines");
            assert_eq!(parse_answers(Edition::Pings, &split(text)), Ok(lines));
        }
        assert_eq!(entropy(0) + &answers(0xF0), "");
        assert_eq!(entropy(0x30_0002), " entropy 0x300002");
        assert_eq!(answers(0b1101), " answers 0 2 3");
        assert_eq!(parse_entropy(Edition::NEWEST, &["65536"]), Ok(1 << 16));
    }

    #[test]
    fn bad_words_are_told() {
        for (text, problem) in [
            ("", "entropy wants a word of 32 bits"),
            ("x", "not a word of 32 bits: x"),
            ("4294967296", "not a word of 32 bits: 4294967296"),
            ("-1", "not a word of 32 bits: -1"),
            ("1 2", "unexpected: 2"),
        ] {
            let parsed = parse_entropy(Edition::NEWEST, &split(text));
            assert_eq!(parsed, Err(problem.to_string()));
        }
        for (text, problem) in [
            ("", "answers wants lines, 0 to 3"),
            ("4", "no such line, 0 to 3: 4"),
            ("0,1", "no such line, 0 to 3: 0,1"),
            ("1 3 1", "line 1 is named twice"),
        ] {
            let parsed = parse_answers(Edition::Pings, &split(text));
            assert_eq!(parsed, Err(problem.to_string()));
        }
    }

    #[test]
    fn the_oldest_editions_have_neither_and_the_newest_no_answers() {
        assert_eq!(parse_entropy(Edition::NEWEST, &["1"]), Ok(1));
        let problem = "edition wires has no answers".to_string();
        assert_eq!(parse_answers(Edition::NEWEST, &["1"]), Err(problem));
        for (edition, name) in [(Edition::Alerts64, "24"), (Edition::Alerts248, "70")] {
            let problem = format!("edition {name} has no entropy");
            assert_eq!(parse_entropy(edition, &["1"]), Err(problem));
            let problem = format!("edition {name} has no answers");
            assert_eq!(parse_answers(edition, &["1"]), Err(problem));
        }
    }
}
