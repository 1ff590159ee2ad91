//! The words after `wave`.
use super::style::Named;
use super::words::{once, Word, Words};
use super::{range, Asked};
use crate::range::Range;
use crate::style::Style;

#[derive(Debug, PartialEq, Eq)]
pub struct Wave {
    pub trace: String,
    /// The file that is written; its ending names the form.
    pub to: String,
    pub form: Form,
    /// How the picture names alerts and ticks.
    pub style: Style,
}

#[derive(Debug, PartialEq, Eq)]
pub enum Form {
    /// A Value Change Dump; `all`: also of alerts that never move.
    Dump { all: bool },
    /// A picture of these ticks.
    Picture(Range),
}

/// What the options ask for, before the ending says which of them go together.
struct Options {
    all: bool,
    range: Range,
}

fn dump(options: &Options) -> Result<Form, String> {
    match options.range {
        Range::ALL => Ok(Form::Dump { all: options.all }),
        _ => Err(
            "--from and --to are for a picture (.svg): a viewer shows any part of a dump".into(),
        ),
    }
}

fn picture(options: &Options) -> Result<Form, String> {
    range::check(options.range)?;
    match options.all {
        false => Ok(Form::Picture(options.range)),
        true => Err("--all is for a dump (.vcd)".to_string()),
    }
}

fn form(to: &str, options: &Options) -> Result<Form, String> {
    let lower = to.to_ascii_lowercase();
    match lower.rsplit_once('.') {
        Some((_, "vcd")) => dump(options),
        Some((_, "svg")) => picture(options),
        _ => Err(format!(
            "-o wants a file that ends in .vcd or .svg, not {to}"
        )),
    }
}

pub fn parse(words: &[String]) -> Result<Asked<Wave>, String> {
    let (mut trace, mut to) = (None, None);
    let mut asked = Options {
        all: false,
        range: Range::ALL,
    };
    let mut named = Named::default();
    let mut words = Words::new("wave", words);
    while let Some(word) = words.take()? {
        match word {
            Word::Option("--help" | "-h") => return Ok(Asked::Help),
            Word::Option("--all") => asked.all = true,
            Word::Option(end @ ("--from" | "--to")) => {
                range::take(&mut asked.range, end, &mut words)?;
            }
            Word::Option("-o") => words.output(&mut to)?,
            Word::Option(option @ ("--names" | "--start" | "--tick")) => {
                named.take(option, &mut words)?;
            }
            Word::Option(_) => return words.unknown(),
            Word::Plain(word) => once(&mut trace, word.to_string(), "wave takes one trace")?,
        }
    }
    let trace = trace.ok_or("wave wants a trace: a file, or - for standard input")?;
    let to = to.ok_or("wave wants -o and a file that ends in .vcd or .svg")?;
    let (form, style) = (form(&to, &asked)?, named.style()?);
    if form != Form::Picture(asked.range) && style != Style::PLAIN {
        return Err("--names, --start and --tick are for a picture (.svg)".to_string());
    }
    Ok(Asked::Run(Wave {
        trace,
        to,
        form,
        style,
    }))
}

#[cfg(test)]
mod tests {
    use super::super::tests;
    use super::*;

    fn parsed(line: &str) -> Result<Asked<Wave>, String> {
        tests::parsed(parse, line)
    }

    fn asked(trace: &str, to: &str, form: Form) -> Result<Asked<Wave>, String> {
        let [trace, to] = [trace, to].map(str::to_string);
        let style = Style::PLAIN;
        Ok(Asked::Run(Wave {
            trace,
            to,
            form,
            style,
        }))
    }

    #[test]
    fn the_ending_names_the_form() {
        let dump = |all| Form::Dump { all };
        let picture = |from, to| Form::Picture(Range { from, to });
        assert_eq!(parsed("t -o a.vcd"), asked("t", "a.vcd", dump(false)));
        assert_eq!(parsed("-o A.VCD --all -"), asked("-", "A.VCD", dump(true)));
        let whole = Form::Picture(Range::ALL);
        assert_eq!(parsed("-o a.vcd.svg t"), asked("t", "a.vcd.svg", whole));
        assert_eq!(
            parsed("t --from 3 -o a.Svg --to 9"),
            asked("t", "a.Svg", picture(3, 9))
        );
        assert_eq!(
            parsed("-o a.svg -- --all"),
            asked("--all", "a.svg", Form::Picture(Range::ALL))
        );
    }

    #[test]
    fn bad_words_are_refused() {
        for line in [
            "",
            "--",
            "t",
            "-o a.svg",
            "t -o",
            "t -o -",
            "t -o a",
            "t -o a.png",
            "t -o a.svg.gz",
            "t -o svg",
            "t -o a.svg -o b.svg",
            "t u -o a.svg",
            "t -o a.svg --all",
            "t -o a.svg --from 4 --to 3",
            "t -o a.svg --from 0",
            "t -o a.vcd --from 2",
            "t -o a.vcd --to 2",
            "t -o a.vcd --wide",
            "t -o a.vcd -x",
            "t -o a.vcd --names",
            "t -o a.svg --start 2026-03-01T04:00:00",
            "t -o a.svg --papers",
        ] {
            assert!(parsed(line).is_err(), "{line}");
        }
    }
}
