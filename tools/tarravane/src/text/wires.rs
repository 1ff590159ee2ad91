//! The wires of a tick: `wires`, then `I=PQ` or `I-J=PQ` for the alerts that are off rest. P is the positive wire, Q the
//! negative one; at rest is 01.
use super::word::{number, shown};
use crate::alert_bits::{self, is_set, put, AlertBits};
use handler::{Edition, Wires, WORDS};
use std::array::from_fn;
use std::fmt::Write;

/// Alerts from the first to the last one, all at one pair of levels.
#[derive(Clone, Copy, Debug, PartialEq, Eq)]
struct Run {
    first: usize,
    last: usize,
    pos: bool,
    neg: bool,
}

fn alert(edition: Edition, word: &str, whole: &str) -> Result<usize, String> {
    let unlike = || format!("I=PQ or I-J=PQ is wanted, not {}", shown(whole));
    let i = number(word).ok_or_else(unlike)?;
    match usize::try_from(i) {
        Ok(i) if i < edition.alerts() => Ok(i),
        _ => {
            let last = edition.alerts() - 1;
            Err(format!("no such alert, 0 to {last}: {}", shown(word)))
        }
    }
}

fn run(edition: Edition, word: &str) -> Result<Run, String> {
    let (alerts, levels) = word.split_once('=').unwrap_or((word, ""));
    let (first, last) = alerts.split_once('-').unwrap_or((alerts, alerts));
    let [first, last] = [first, last].map(|i| alert(edition, i, word));
    let (first, last) = (first?, last?);
    let (pos, neg) = match levels {
        "00" => (false, false),
        "01" => (false, true),
        "10" => (true, false),
        "11" => (true, true),
        _ => return Err(format!("=00, =01, =10 or =11 is wanted: {}", shown(word))),
    };
    if first > last {
        return Err(format!("the range falls: {}", shown(word)));
    }
    Ok(Run {
        first,
        last,
        pos,
        neg,
    })
}

/// The wires that the words after `wires` give.
pub fn parse<'a>(edition: Edition, words: impl Iterator<Item = &'a str>) -> Result<Wires, String> {
    let (mut wires, mut named) = (Wires::REST, [0; WORDS]);
    for word in words {
        let run = run(edition, word)?;
        for i in run.first..=run.last {
            if is_set(&named, i) {
                return Err(format!("alert {i} is named twice"));
            }
            put(&mut named, i, true);
            put(&mut wires.pos, i, run.pos);
            put(&mut wires.neg, i, run.neg);
        }
    }
    match alert_bits::count(named) {
        0 => Err("wires wants I=PQ or I-J=PQ".to_string()),
        _ => Ok(wires),
    }
}

/// The alerts that are not at (0,1).
fn off_rest(wires: Wires) -> AlertBits {
    from_fn(|word| wires.pos[word] | !wires.neg[word])
}

/// How many alerts are not at (0,1).
pub fn count(wires: Wires) -> u32 {
    alert_bits::count(off_rest(wires))
}

/// The first alert from `from` on that is not at (0,1).
pub fn first_off_rest(wires: Wires, from: usize) -> Option<usize> {
    alert_bits::alerts(off_rest(wires)).find(|i| *i >= from)
}

/// The runs of neighbours at the same levels that are off rest, as long as can be.
fn runs(wires: Wires) -> Vec<Run> {
    let mut all: Vec<Run> = Vec::new();
    for i in alert_bits::alerts(off_rest(wires)) {
        let (pos, neg) = (is_set(&wires.pos, i), is_set(&wires.neg, i));
        match all.last_mut() {
            Some(run) if (run.last + 1, run.pos, run.neg) == (i, pos, neg) => run.last = i,
            _ => all.push(Run {
                first: i,
                last: i,
                pos,
                neg,
            }),
        }
    }
    all
}

/// Each alert that is not at (0,1), with its pair.
pub fn each(wires: Wires) -> impl Iterator<Item = (usize, (bool, bool))> {
    let pair = move |i: usize| (is_set(&wires.pos, i), is_set(&wires.neg, i));
    alert_bits::alerts(off_rest(wires)).map(move |i| (i, pair(i)))
}

/// The words of the wires, with a space before each; nothing where all are at rest.
pub fn words(wires: Wires) -> String {
    let mut text = String::new();
    for run in runs(wires) {
        let start = if text.is_empty() { " wires" } else { "" };
        let (pos, neg) = (u8::from(run.pos), u8::from(run.neg));
        let range = match run.last - run.first {
            0 => String::new(),
            _ => format!("-{}", run.last),
        };
        // A string takes all that is written.
        let _ = write!(text, "{start} {}{range}={pos}{neg}", run.first);
    }
    text
}

#[cfg(test)]
mod tests {
    use super::*;

    fn parsed(text: &str) -> Result<Wires, String> {
        parse(Edition::Alerts248, text.split_whitespace())
    }

    #[test]
    fn wires_go_both_ways() {
        let (pos, neg) = (0x0123_4567_89AB_CDEF, 0x00FF_0F0F_3333_5555);
        for (pos, neg) in [
            (pos, neg),
            (neg, pos),
            (0, 0),
            (u64::MAX, 0),
            (u64::MAX, u64::MAX),
            (1, u64::MAX),
            (0, u64::MAX >> 1),
        ] {
            for word in 0..WORDS - 1 {
                let mut wires = Wires::REST;
                (wires.pos[word], wires.neg[word]) = (pos, neg);
                let text = words(wires);
                let pairs = text.strip_prefix(" wires ").expect("it is off rest");
                assert_eq!(parsed(pairs), Ok(wires), "{text}");
            }
        }
        assert_eq!(words(Wires::REST), "");
    }

    #[test]
    fn alert_0_is_the_highest_bit() {
        let mut wires = Wires::REST;
        wires.pos[0] = 0b11 << 62;
        wires.neg[0] = u64::MAX << 1 & !(1 << 63);
        (wires.pos[1], wires.neg[3]) = (1 << 63, !(1 << 8));
        let text = " wires 0=10 1=11 63=00 64=11 247=00";
        assert_eq!(words(wires), text);
        assert_eq!(parsed("63=00 1=11 247=00 64=11 0=10 5-9=01"), Ok(wires));
        assert_eq!(count(wires), 5);
        assert_eq!(first_off_rest(wires, 2), Some(63));
        assert_eq!(first_off_rest(wires, 65), Some(247));
        assert_eq!(first_off_rest(wires, 248), None);
    }

    #[test]
    fn neighbours_are_one_range() {
        let three = parsed("2=10 3=10 4=10 5=11").expect("wires");
        assert_eq!(words(three), " wires 2-4=10 5=11");
        let far = parsed("60-64=11 65=11 66-247=10").expect("wires");
        assert_eq!(words(far), " wires 60-65=11 66-247=10");
        let all = parsed("0-247=10").expect("wires");
        assert_eq!(words(all), " wires 0-247=10");
        assert_eq!((count(three), count(far), count(all)), (4, 188, 248));
    }

    #[test]
    fn bad_words_are_told() {
        for (text, problem) in [
            ("", "wires wants I=PQ or I-J=PQ"),
            ("x", "I=PQ or I-J=PQ is wanted, not x"),
            ("=10", "I=PQ or I-J=PQ is wanted, not =10"),
            ("1-=10", "I=PQ or I-J=PQ is wanted, not 1-=10"),
            ("1-2-3=10", "I=PQ or I-J=PQ is wanted, not 1-2-3=10"),
            ("5", "=00, =01, =10 or =11 is wanted: 5"),
            ("5=1", "=00, =01, =10 or =11 is wanted: 5=1"),
            ("5=12", "=00, =01, =10 or =11 is wanted: 5=12"),
            ("5=10=10", "=00, =01, =10 or =11 is wanted: 5=10=10"),
            ("248=10", "no such alert, 0 to 247: 248"),
            ("0-248=10", "no such alert, 0 to 247: 248"),
            ("5-4=10", "the range falls: 5-4=10"),
            ("5=10 5=10", "alert 5 is named twice"),
            ("5=01 2-9=10", "alert 5 is named twice"),
            ("200=01 70-247=10", "alert 200 is named twice"),
        ] {
            assert_eq!(parsed(text), Err(problem.to_string()), "{text}");
        }
        let old = |text: &str| parse(Edition::Alerts64, text.split_whitespace());
        assert!(old("0-63=10").is_ok());
        let problem = "no such alert, 0 to 63: 64";
        assert_eq!(old("64=10"), Err(problem.to_string()));
    }
}
