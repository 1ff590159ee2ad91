//! The words after `read`.
use super::words::{once, Word, Words};
use super::Asked;

#[derive(Debug, PartialEq, Eq)]
pub struct Read {
    pub file: String,
    pub json: bool,
    /// Alerts with their names in document 002.
    pub names: bool,
}

pub fn parse(words: &[String]) -> Result<Asked<Read>, String> {
    let (mut file, mut json, mut names) = (None, false, false);
    let mut words = Words::new("read", words);
    while let Some(word) = words.take()? {
        match word {
            Word::Option("--help" | "-h") => return Ok(Asked::Help),
            Word::Option("--json") => json = true,
            Word::Option("--names") => names = true,
            Word::Option(_) => return words.unknown(),
            Word::Plain(word) => once(&mut file, word.to_string(), "read takes one dump")?,
        }
    }
    let file = file.ok_or("read wants a dump: a file, or - for standard input")?;
    Ok(Asked::Run(Read { file, json, names }))
}

#[cfg(test)]
mod tests {
    use super::super::tests::parsed;
    use super::*;

    #[test]
    fn options_stand_before_or_after_the_file() {
        let asked = |file: &str, json| {
            let (file, names) = (file.to_string(), false);
            Ok(Asked::Run(Read { file, json, names }))
        };
        assert_eq!(parsed(parse, "d"), asked("d", false));
        assert_eq!(parsed(parse, "- --json"), asked("-", true));
        assert_eq!(parsed(parse, "--json -- --json"), asked("--json", true));
    }

    #[test]
    fn bad_words_are_refused() {
        for (line, why) in [
            ("", "read wants a dump: a file, or - for standard input"),
            (
                "--json",
                "read wants a dump: a file, or - for standard input",
            ),
            ("a b", "read takes one dump"),
            ("a --xml", "read has no option --xml"),
        ] {
            assert_eq!(parsed(parse, line), Err(why.to_string()), "{line}");
        }
    }
}
