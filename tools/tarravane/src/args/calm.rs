//! The words after `calm`.
use super::words::{once, Word, Words};
use super::{number, range, Asked};
use crate::range::Range;
use crate::text::wires;
use crate::text::word::shown;
use handler::{Edition, Wires};

#[derive(Debug, PartialEq, Eq)]
pub struct Calm {
    pub trace: String,
    pub ticks: u32,
    /// The last tick of the trace that is run.
    pub to: u64,
    /// The wires of the calm ticks; those of the last tick where they are not given.
    pub wires: Option<Wires>,
}

fn ticks(word: &str) -> Result<u32, String> {
    let ticks = number(word).and_then(|number| u32::try_from(number).ok());
    let wanted = || {
        format!(
            "calm wants a number of ticks from 0 to {}, not {}",
            u32::MAX,
            shown(word)
        )
    };
    ticks.ok_or_else(wanted)
}

/// `rest`, or the pairs that a text has after `wires`, parted by commas.
fn parse_wires(word: &str) -> Result<Wires, String> {
    if word == "rest" {
        return Ok(Wires::REST);
    }
    let pairs = word.split([',', ' ']).filter(|pair| !pair.is_empty());
    wires::parse(Edition::NEWEST, pairs).map_err(|problem| format!("--wires: {problem}"))
}

/// What is said where no wires follow.
const WIRES: &str = "--wires wants rest, or I=PQ or I-J=PQ and more of them after commas";

pub fn parse(words: &[String]) -> Result<Asked<Calm>, String> {
    let (mut trace, mut count, mut wires) = (None, None, None);
    let mut range = Range::ALL;
    let mut words = Words::new("calm", words);
    while let Some(word) = words.take()? {
        match word {
            Word::Option("--help" | "-h") => return Ok(Asked::Help),
            Word::Option("--to") => range::take(&mut range, "--to", &mut words)?,
            Word::Option("--wires") => {
                let given = parse_wires(words.value(WIRES)?)?;
                once(&mut wires, given, "calm takes one --wires")?;
            }
            Word::Option(_) => return words.unknown(),
            Word::Plain(word) if trace.is_none() => trace = Some(word.to_string()),
            Word::Plain(word) if count.is_none() => count = Some(ticks(word)?),
            Word::Plain(_) => {
                return Err("calm takes one trace and one number of ticks".to_string())
            }
        }
    }
    let trace = trace.ok_or("calm wants a trace, a file or - for standard input")?;
    let ticks = count.ok_or("calm wants a number of ticks after the trace")?;
    Ok(Asked::Run(Calm {
        trace,
        ticks,
        to: range.to,
        wires,
    }))
}

#[cfg(test)]
mod tests {
    use super::super::tests;
    use super::*;

    fn parsed(line: &str) -> Result<Asked<Calm>, String> {
        tests::parsed(parse, line)
    }

    fn asked(
        trace: &str,
        ticks: u32,
        to: u64,
        wires: Option<Wires>,
    ) -> Result<Asked<Calm>, String> {
        Ok(Asked::Run(Calm {
            trace: trace.to_string(),
            ticks,
            to,
            wires,
        }))
    }

    /// Alert 0 at (1,0), alerts 5 to 7 at (1,1).
    fn some() -> Wires {
        let mut wires = Wires::REST;
        wires.pos[0] = 1 << 63 | 0b111 << 56;
        wires.neg[0] = u64::MAX >> 1;
        wires
    }

    #[test]
    fn options_stand_before_between_or_after() {
        let all = u64::MAX;
        assert_eq!(parsed("t 0"), asked("t", 0, all, None));
        assert_eq!(parsed("- 4294967295"), asked("-", u32::MAX, all, None));
        let rest = Some(Wires::REST);
        assert_eq!(parsed("--wires rest t 7"), asked("t", 7, all, rest));
        let line = "t --wires 0=10,5-7=11 7 --to 9";
        assert_eq!(parsed(line), asked("t", 7, 9, Some(some())));
        let words = ["t", "7", "--wires", " 5-7=11, 0=10 "].map(str::to_string);
        assert_eq!(parse(&words), asked("t", 7, all, Some(some())));
        assert_eq!(parsed("-- --to 3"), asked("--to", 3, all, None));
    }

    #[test]
    fn bad_words_are_told() {
        let ticks = |word| format!("calm wants a number of ticks from 0 to 4294967295, not {word}");
        for (line, why) in [
            (
                "",
                "calm wants a trace, a file or - for standard input".to_string(),
            ),
            (
                "t",
                "calm wants a number of ticks after the trace".to_string(),
            ),
            ("t many", ticks("many")),
            ("t 4294967296", ticks("4294967296")),
            ("t 99999999999999999999", ticks("99999999999999999999")),
            ("t +1", ticks("+1")),
            ("t 1.5", ticks("1.5")),
            ("t 0x10", ticks("0x10")),
            ("t -", ticks("-")),
            ("t -1", ticks("-1")),
            (
                "t 1 2",
                "calm takes one trace and one number of ticks".to_string(),
            ),
            (
                "t 1 --to 0",
                "--to wants a tick number from 1 on, not 0".to_string(),
            ),
            ("t 1 --from 2", "calm has no option --from".to_string()),
            (
                "t 1 --wires",
                "--wires wants rest, or I=PQ or I-J=PQ and more of them after commas".to_string(),
            ),
            (
                "t 1 --wires ,",
                "--wires: wires wants I=PQ or I-J=PQ".to_string(),
            ),
            (
                "t 1 --wires 0=1",
                "--wires: =00, =01, =10 or =11 is wanted: 0=1".to_string(),
            ),
            (
                "t 1 --wires 248=10",
                "--wires: no such alert, 0 to 247: 248".to_string(),
            ),
            (
                "t 1 --wires 0=10,0=11",
                "--wires: alert 0 is named twice".to_string(),
            ),
            (
                "t 1 --wires rest --wires rest",
                "calm takes one --wires".to_string(),
            ),
        ] {
            assert_eq!(parsed(line), Err(why), "{line}");
        }
    }
}
