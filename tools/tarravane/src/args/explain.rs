//! The words after `explain`.
use super::style::Named;
use super::words::{once, Word, Words};
use super::{range, Asked};
use crate::range::Range;
use crate::style::Style;

#[derive(Debug, PartialEq, Eq)]
pub struct Explain {
    pub trace: String,
    pub range: Range,
    pub style: Style,
    pub shown: Shown,
    /// As JSON, an object in a line.
    pub json: bool,
}

/// What of the trace is shown.
#[derive(Clone, Copy, Debug, PartialEq, Eq)]
pub enum Shown {
    Rows(Rows),
    Summary,
}

#[derive(Clone, Copy, Debug, Default, PartialEq, Eq)]
pub struct Rows {
    pub only_changes: bool,
    pub wide: bool,
}

fn shown(rows: Rows, summary: bool, json: bool) -> Result<Shown, String> {
    if json && rows.wide {
        return Err("--json has all that --wide has: one of them is enough".to_string());
    }
    match summary {
        true if rows != Rows::default() => {
            Err("--summary has no rows: --only-changes and --wide do not go with it".to_string())
        }
        true => Ok(Shown::Summary),
        false => Ok(Shown::Rows(rows)),
    }
}

pub fn parse(words: &[String]) -> Result<Asked<Explain>, String> {
    let (mut trace, mut range, mut named) = (None, Range::ALL, Named::default());
    let (mut rows, mut summary, mut json) = (Rows::default(), false, false);
    let mut words = Words::new("explain", words);
    while let Some(word) = words.take()? {
        match word {
            Word::Option("--help" | "-h") => return Ok(Asked::Help),
            Word::Option(end @ ("--from" | "--to")) => range::take(&mut range, end, &mut words)?,
            Word::Option("--only-changes") => rows.only_changes = true,
            Word::Option("--wide") => rows.wide = true,
            Word::Option("--summary") => summary = true,
            Word::Option("--json") => json = true,
            Word::Option(option) if named.take(option, &mut words)? => {}
            Word::Option(_) => return words.unknown(),
            Word::Plain(word) => once(&mut trace, word.to_string(), "explain takes one trace")?,
        }
    }
    let trace = trace.ok_or("explain wants a trace: a file, or - for standard input")?;
    range::check(range)?;
    let shown = shown(rows, summary, json)?;
    Ok(Asked::Run(Explain {
        trace,
        range,
        style: named.style()?,
        shown,
        json,
    }))
}

#[cfg(test)]
mod tests {
    use super::super::tests;
    use super::*;
    use crate::clock::Clock;
    use handler::registers::Naming;

    const ALL: Shown = Shown::Rows(Rows {
        only_changes: false,
        wide: false,
    });

    fn parsed(line: &str) -> Result<Asked<Explain>, String> {
        tests::parsed(parse, line)
    }

    fn asked(trace: &str, range: Range, shown: Shown) -> Explain {
        Explain {
            trace: trace.to_string(),
            range,
            style: Style::PLAIN,
            shown,
            json: false,
        }
    }

    #[test]
    fn options_stand_before_or_after_the_trace() {
        let some = Shown::Rows(Rows {
            only_changes: true,
            wide: true,
        });
        let range = Range { from: 3, to: 9 };
        for line in [
            "--from 3 t --papers --to 9 --only-changes --wide",
            "--from=3 --papers --to=9 --only-changes --wide t",
        ] {
            let mut wanted = asked("t", range, some);
            wanted.style.naming = Naming::Papers;
            assert_eq!(parsed(line), Ok(Asked::Run(wanted)), "{line}");
        }
        let mut wanted = asked("t", Range::ALL, Shown::Summary);
        wanted.json = true;
        wanted.style.names = true;
        wanted.style.clock = Some(Clock::parse("2026-03-01T04:00:00", "0.5").expect("a clock"));
        let line = "--json t --names --start=2026-03-01T04:00:00 --tick 0.5 --summary";
        assert_eq!(parsed(line), Ok(Asked::Run(wanted)));
        let run = |trace, range, shown| Ok(Asked::Run(asked(trace, range, shown)));
        assert_eq!(parsed("-"), run("-", Range::ALL, ALL));
        let summary = |range| run("t", range, Shown::Summary);
        assert_eq!(parsed("t --summary"), summary(Range::ALL));
        assert_eq!(parsed("--to 9 t --from 3 --summary"), summary(range));
    }

    #[test]
    fn no_option_follows_two_hyphens() {
        let run = |trace, shown| Ok(Asked::Run(asked(trace, Range::ALL, shown)));
        assert_eq!(parsed("-- t"), run("t", ALL));
        assert_eq!(parsed("-- --help"), run("--help", ALL));
        assert_eq!(parsed("--summary -- -x"), run("-x", Shown::Summary));
        assert_eq!(parsed("-- --"), run("--", ALL));
    }

    #[test]
    fn bad_words_are_refused() {
        for line in [
            "",
            "--",
            "a b",
            "a -- b",
            "t --from",
            "t --from 0",
            "t --from=",
            "t --wide=1",
            "t --to x",
            "t --from 4 --to 3",
            "t --all",
            "t -x",
            "t --summary --wide",
            "t --json --wide",
            "t --start 2026-03-01T04:00:00",
            "t --tick 1",
            "t --start now --tick 1",
            "t --start 2026-03-01T04:00:00 --tick 0",
            "t --tick 1 --tick 1 --start 2026-03-01T04:00:00",
            "t --summary --from 4 --to 3",
            "t --summary --papers --only-changes",
        ] {
            assert!(parsed(line).is_err(), "{line}");
        }
        let beyond = "t --from 99999999999999999999";
        let why = "--from 99999999999999999999: no trace has a tick above 18446744073709551615";
        assert_eq!(parsed(beyond), Err(why.to_string()));
    }
}
