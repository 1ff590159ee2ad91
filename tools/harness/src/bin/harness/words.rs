//! The words of the command line.

use crate::trouble::{usage, Trouble};
use handler::Edition;
use harness::compare::Case;
use harness::generate::Kind;
use std::str::FromStr;

/// The options with a number.
const NAMES: [&str; 6] = [
    "--boots",
    "--lists",
    "--records",
    "--seed",
    "--states",
    "--traces",
];

/// The option with an edition's name.
const EDITION: &str = "--edition";

/// The options that were given.
pub struct Options {
    numbers: Vec<(&'static str, u64)>,
    edition: Option<Edition>,
}

/// Takes an option and its word out of the words.
fn taken(words: &mut Vec<String>, name: &str) -> Result<Option<String>, Trouble> {
    let at = match words.iter().position(|word| word == name) {
        Some(at) => at,
        None => return Ok(None),
    };
    if at + 1 == words.len() {
        return Err(usage(format!("{name} needs a word")));
    }
    words.remove(at);
    Ok(Some(words.remove(at)))
}

impl Options {
    /// Takes the options out of the words.
    pub fn take(words: &mut Vec<String>) -> Result<Options, Trouble> {
        let mut numbers = Vec::new();
        for name in NAMES {
            if let Some(word) = taken(words, name)? {
                numbers.push((name, number(&word)?));
            }
        }
        let edition = taken(words, EDITION)?.map(|word| {
            let named = Edition::named(&word);
            named.ok_or_else(|| usage(format!("no edition {word}")))
        });
        let edition = edition.transpose()?;
        Ok(Options { numbers, edition })
    }

    /// The number of an option, if it was given.
    pub fn get(&self, name: &str) -> Option<u64> {
        let mut given = self.numbers.iter();
        given.find(|option| option.0 == name).map(|option| option.1)
    }

    /// A command takes these options and no others.
    pub fn only(self, command: &str, names: &[&str]) -> Result<Options, Trouble> {
        let numbers = self.numbers.iter().map(|option| option.0);
        let mut given = numbers.chain(self.edition.map(|_| EDITION));
        match given.find(|name| !names.contains(name)) {
            Some(name) => Err(usage(format!("{name} is not for {command}"))),
            None => Ok(self),
        }
    }

    /// The edition that was asked for, by its name.
    pub fn edition(&self) -> Option<Edition> {
        self.edition
    }
}

pub fn number<T: FromStr>(word: &str) -> Result<T, Trouble> {
    word.parse()
        .map_err(|_| usage(format!("{word} is no number here")))
}

/// A trace by the words that name it.
pub fn case(kind: &str, seed: &str, options: &Options) -> Result<Case, Trouble> {
    let kind = Kind::named(kind).ok_or_else(|| usage(format!("no kind {kind}")))?;
    let seed = number(seed)?;
    Ok(Case {
        edition: options.edition().unwrap_or(Edition::Alerts64),
        kind,
        seed,
        records: options.get("--records").map(|records| records as usize),
    })
}
