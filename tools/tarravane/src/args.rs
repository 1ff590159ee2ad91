//! The words after each command.
pub mod boot;
pub mod calm;
pub mod diff;
pub mod dump;
pub mod explain;
mod range;
pub mod read;
pub mod record;
mod style;
pub mod wave;
mod words;

/// What the words ask for.
#[derive(Debug, PartialEq, Eq)]
pub enum Asked<T> {
    Help,
    Run(T),
}

/// A number in decimal digits alone: the standard reader would take a sign.
fn number(word: &str) -> Option<u64> {
    let digits = word.bytes().all(|byte| byte.is_ascii_digit());
    word.parse().ok().filter(|_| digits)
}

#[cfg(test)]
mod tests {
    use super::*;

    /// What a command makes of the words of a line.
    pub fn parsed<T>(
        parse: fn(&[String]) -> Result<Asked<T>, String>,
        line: &str,
    ) -> Result<Asked<T>, String> {
        let words: Vec<String> = line.split_whitespace().map(str::to_string).collect();
        parse(&words)
    }

    #[test]
    fn help_is_asked_for_by_its_option() {
        for line in ["--help", "-h", "t --help", "--help --both"] {
            assert_eq!(parsed(explain::parse, line), Ok(Asked::Help), "{line}");
            assert_eq!(parsed(record::parse, line), Ok(Asked::Help), "{line}");
            assert_eq!(parsed(dump::parse, line), Ok(Asked::Help), "{line}");
            assert_eq!(parsed(read::parse, line), Ok(Asked::Help), "{line}");
            assert_eq!(parsed(wave::parse, line), Ok(Asked::Help), "{line}");
            assert_eq!(parsed(calm::parse, line), Ok(Asked::Help), "{line}");
            assert_eq!(parsed(diff::parse, line), Ok(Asked::Help), "{line}");
        }
        for line in ["--help", "-h", "PROD --help", "--help --both"] {
            assert_eq!(parsed(boot::parse, line), Ok(Asked::Help), "{line}");
        }
    }
}
