//! The words after a command, one after another.
use std::slice::Iter;

/// A word: an option, or what no option takes.
#[derive(Clone, Copy, Debug, PartialEq, Eq)]
pub enum Word<'a> {
    Option(&'a str),
    Plain(&'a str),
}

pub struct Words<'a> {
    command: &'static str,
    rest: Iter<'a, String>,
    /// No option follows two hyphens.
    options: bool,
    /// The last option, and what stands after its =, until that is taken.
    option: &'a str,
    given: Option<&'a str>,
}

/// Is the word an option? - alone is standard input, and -1 a number.
fn is_option(word: &str) -> bool {
    let second = word.strip_prefix('-').and_then(|rest| rest.chars().next());
    second.map_or(false, |c| !c.is_ascii_digit())
}

impl<'a> Words<'a> {
    pub fn new(command: &'static str, words: &'a [String]) -> Words<'a> {
        Words {
            command,
            rest: words.iter(),
            options: true,
            option: "",
            given: None,
        }
    }

    /// The next word; an option may have its value after =, as `--from=5`.
    pub fn take(&mut self) -> Result<Option<Word<'a>>, String> {
        if let Some(given) = self.given {
            return Err(format!("{} takes no value: ={given}", self.option));
        }
        let word = match self.rest.next() {
            Some(word) => word.as_str(),
            None => return Ok(None),
        };
        if word == "--" && self.options {
            self.options = false;
            return self.take();
        }
        if !self.options || !is_option(word) {
            return Ok(Some(Word::Plain(word)));
        }
        let (option, given) = match word.split_once('=') {
            Some((option, given)) if option.starts_with("--") => (option, Some(given)),
            _ => (word, None),
        };
        (self.option, self.given) = (option, given);
        Ok(Some(Word::Option(option)))
    }

    /// What the last option takes: what stands after its =, else the next word; `wants`: what is said where there is none.
    pub fn value(&mut self, wants: &str) -> Result<&'a str, String> {
        let next = self.given.take();
        let next = next.or_else(|| self.rest.next().map(String::as_str));
        next.ok_or_else(|| wants.to_string())
    }

    /// The file after -o, once.
    pub fn output(&mut self, to: &mut Option<String>) -> Result<(), String> {
        match to {
            Some(_) => Err(format!("{} takes one -o", self.command)),
            None => {
                *to = Some(self.value("-o wants a file")?.to_string());
                Ok(())
            }
        }
    }

    pub fn unknown<T>(&self) -> Result<T, String> {
        Err(format!("{} has no option {}", self.command, self.option))
    }
}

/// Takes what may be given once; `twice`: what is said of a second.
pub fn once<T>(place: &mut Option<T>, given: T, twice: &str) -> Result<(), String> {
    match place.replace(given) {
        None => Ok(()),
        Some(_) => Err(twice.to_string()),
    }
}

#[cfg(test)]
mod tests {
    use super::*;

    fn of(line: &str) -> Vec<String> {
        line.split_whitespace().map(str::to_string).collect()
    }

    #[test]
    fn options_end_at_two_hyphens() {
        let all = of("a -x - -1 -- -y --");
        let mut words = Words::new("c", &all);
        for wanted in [
            Word::Plain("a"),
            Word::Option("-x"),
            Word::Plain("-"),
            Word::Plain("-1"),
            Word::Plain("-y"),
            Word::Plain("--"),
        ] {
            assert_eq!(words.take(), Ok(Some(wanted)));
        }
        assert_eq!(words.take(), Ok(None));
    }

    #[test]
    fn a_value_stands_after_a_space_or_an_equals_sign() {
        let all = of("--from=5 --to 9 --name= --wide=1");
        let mut words = Words::new("c", &all);
        for (option, value) in [("--from", "5"), ("--to", "9"), ("--name", "")] {
            assert_eq!(words.take(), Ok(Some(Word::Option(option))));
            assert_eq!(words.value("a value"), Ok(value));
        }
        assert_eq!(words.take(), Ok(Some(Word::Option("--wide"))));
        let why = Err("--wide takes no value: =1".to_string());
        assert_eq!(words.take(), why);
        assert_eq!(
            Words::new("c", &[]).value("a value"),
            Err("a value".to_string())
        );
    }
}
