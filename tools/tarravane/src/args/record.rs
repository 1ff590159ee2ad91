//! The words after `record`.
use super::words::{once, Word, Words};
use super::Asked;

#[derive(Debug, PartialEq, Eq)]
pub struct Record {
    /// A text; with `back` a trace.
    pub from: String,
    /// A file; standard output where it is missing or -.
    pub to: Option<String>,
    pub back: bool,
}

pub fn parse(words: &[String]) -> Result<Asked<Record>, String> {
    let (mut from, mut to, mut back) = (None, None, false);
    let mut words = Words::new("record", words);
    while let Some(word) = words.take()? {
        match word {
            Word::Option("--help" | "-h") => return Ok(Asked::Help),
            Word::Option("--back") => back = true,
            Word::Option("-o") => words.output(&mut to)?,
            Word::Option(_) => return words.unknown(),
            Word::Plain(word) => once(&mut from, word.to_string(), "record takes one file, or -")?,
        }
    }
    let wanted = if back { "a trace" } else { "a text" };
    let from =
        from.ok_or_else(|| format!("record wants {wanted}: a file, or - for standard input"))?;
    let to = to.filter(|to| to != "-");
    Ok(Asked::Run(Record { from, to, back }))
}

#[cfg(test)]
mod tests {
    use super::super::tests;
    use super::*;

    fn parsed(line: &str) -> Result<Asked<Record>, String> {
        tests::parsed(parse, line)
    }

    #[test]
    fn options_stand_before_or_after_the_file() {
        let asked = |from: &str, to: Option<&str>, back| {
            Ok(Asked::Run(Record {
                from: from.to_string(),
                to: to.map(str::to_string),
                back,
            }))
        };
        assert_eq!(parsed("t"), asked("t", None, false));
        assert_eq!(parsed("- -o -"), asked("-", None, false));
        assert_eq!(parsed("-o u t"), asked("t", Some("u"), false));
        assert_eq!(parsed("t --back -o u"), asked("t", Some("u"), true));
        assert_eq!(parsed("--back -"), asked("-", None, true));
        assert_eq!(parsed("--back -- --back"), asked("--back", None, true));
        assert_eq!(
            parsed("-o --help -- -o"),
            asked("-o", Some("--help"), false)
        );
    }

    #[test]
    fn bad_words_are_refused() {
        for line in [
            "",
            "--",
            "--back",
            "a b",
            "a -- b",
            "t -o",
            "t -o u -o v",
            "t --forth",
            "t -x",
        ] {
            assert!(parsed(line).is_err(), "{line}");
        }
    }
}
