//! The words after `diff`.
use super::style::Named;
use super::words::{Word, Words};
use super::Asked;
use crate::style::Style;

#[derive(Debug, PartialEq, Eq)]
pub struct Diff {
    pub traces: [String; 2],
    pub style: Style,
    pub wide: bool,
}

pub fn parse(words: &[String]) -> Result<Asked<Diff>, String> {
    let (mut traces, mut named, mut wide) = (Vec::new(), Named::default(), false);
    let mut words = Words::new("diff", words);
    while let Some(word) = words.take()? {
        match word {
            Word::Option("--help" | "-h") => return Ok(Asked::Help),
            Word::Option("--wide") => wide = true,
            Word::Option(option) if named.take(option, &mut words)? => {}
            Word::Option(_) => return words.unknown(),
            Word::Plain(word) => traces.push(word.to_string()),
        }
    }
    let traces: [String; 2] = traces
        .try_into()
        .map_err(|_| "diff wants two traces: files, or - for standard input")?;
    if traces == ["-", "-"] {
        return Err("diff reads standard input once: one of the traces is a file".to_string());
    }
    Ok(Asked::Run(Diff {
        traces,
        style: named.style()?,
        wide,
    }))
}

#[cfg(test)]
mod tests {
    use super::super::tests::parsed;
    use super::*;

    #[test]
    fn two_traces_are_taken() {
        let asked = |a: &str, b: &str, wide| {
            let traces = [a, b].map(str::to_string);
            let style = Style::PLAIN;
            Ok(Asked::Run(Diff {
                traces,
                style,
                wide,
            }))
        };
        assert_eq!(parsed(parse, "a b"), asked("a", "b", false));
        assert_eq!(parsed(parse, "- --wide -- -b"), asked("-", "-b", true));
        for line in [
            "",
            "a",
            "a b c",
            "- -",
            "a b -x",
            "a b --start 2026-03-01T00:00",
        ] {
            assert!(parsed(parse, line).is_err(), "{line}");
        }
    }
}
