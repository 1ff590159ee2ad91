//! The words after `dump`.
use super::words::{once, Word, Words};
use super::{range, Asked};

#[derive(Debug, PartialEq, Eq)]
pub struct Dump {
    pub trace: String,
    /// A file; standard output where it is missing or -.
    pub to: Option<String>,
    pub which: Which,
}

/// Which state of the trace.
#[derive(Clone, Copy, Debug, PartialEq, Eq)]
pub enum Which {
    Last,
    /// The one after this tick.
    After(u64),
    /// The one after the tick in which the first escalation starts.
    FirstStart,
}

pub fn parse(words: &[String]) -> Result<Asked<Dump>, String> {
    let (mut trace, mut to, mut which) = (None, None, None);
    let mut words = Words::new("dump", words);
    let twice = "dump takes one of --at and --at-start, once";
    while let Some(word) = words.take()? {
        match word {
            Word::Option("--help" | "-h") => return Ok(Asked::Help),
            Word::Option("--at") => {
                let tick = range::tick("--at", &mut words)?;
                once(&mut which, Which::After(tick), twice)?;
            }
            Word::Option("--at-start") => once(&mut which, Which::FirstStart, twice)?,
            Word::Option("-o") => words.output(&mut to)?,
            Word::Option(_) => return words.unknown(),
            Word::Plain(word) => once(&mut trace, word.to_string(), "dump takes one trace")?,
        }
    }
    let trace = trace.ok_or("dump wants a trace: a file, or - for standard input")?;
    let to = to.filter(|to| to != "-");
    let which = which.unwrap_or(Which::Last);
    Ok(Asked::Run(Dump { trace, to, which }))
}

#[cfg(test)]
mod tests {
    use super::super::tests;
    use super::*;

    fn parsed(line: &str) -> Result<Asked<Dump>, String> {
        tests::parsed(parse, line)
    }

    #[test]
    fn options_stand_before_or_after_the_trace() {
        let asked = |trace: &str, to: Option<&str>, which| {
            Ok(Asked::Run(Dump {
                trace: trace.to_string(),
                to: to.map(str::to_string),
                which,
            }))
        };
        assert_eq!(parsed("t"), asked("t", None, Which::Last));
        assert_eq!(parsed("- -o -"), asked("-", None, Which::Last));
        assert_eq!(
            parsed("--at 9 t -o d"),
            asked("t", Some("d"), Which::After(9))
        );
        assert_eq!(
            parsed("-o d --at-start -- --at"),
            asked("--at", Some("d"), Which::FirstStart)
        );
    }

    #[test]
    fn bad_words_are_refused() {
        for (line, why) in [
            ("", "dump wants a trace: a file, or - for standard input"),
            ("--", "dump wants a trace: a file, or - for standard input"),
            ("t u", "dump takes one trace"),
            ("t -o", "-o wants a file"),
            ("t -o d -o e", "dump takes one -o"),
            ("t --at", "--at wants a tick number"),
            ("t --at 0", "--at wants a tick number from 1 on, not 0"),
            ("t --at -1", "--at wants a tick number from 1 on, not -1"),
            (
                "t --at 1 --at 2",
                "dump takes one of --at and --at-start, once",
            ),
            (
                "t --at-start --at 2",
                "dump takes one of --at and --at-start, once",
            ),
            ("t --start", "dump has no option --start"),
        ] {
            assert_eq!(parsed(line), Err(why.to_string()), "{line}");
        }
    }
}
