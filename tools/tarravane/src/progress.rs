//! How far a long input has been read, on standard error where that is a terminal.
use crate::terminal;
use std::io::{stderr, Write};

/// Units from one word to the next.
const EVERY: u64 = 1 << 16;

pub struct Progress {
    on: bool,
    shown: bool,
    unit: &'static str,
    all: Option<u64>,
}

impl Progress {
    /// `unit`: what is counted; `all`: how many there are, where that is known.
    pub fn new(unit: &'static str, all: Option<u64>) -> Progress {
        Progress {
            on: terminal::is_error(),
            shown: false,
            unit,
            all,
        }
    }

    /// Says nothing: for what shows by itself how far it is.
    pub fn silent() -> Progress {
        Progress {
            on: false,
            ..Progress::new("", None)
        }
    }

    /// Is there a word to say at this number?
    pub fn is_due(&self, number: u64) -> bool {
        self.on && number % EVERY == 0
    }

    pub fn say(&mut self, number: u64) {
        let unit = self.unit;
        let _ = match self.all {
            Some(all) => write!(stderr(), "\r{unit} {number} of {all}"),
            None => write!(stderr(), "\r{unit} {number}"),
        };
        self.shown = true;
    }

    /// Takes the word away again.
    pub fn clear(&mut self) {
        if self.shown {
            let _ = write!(stderr(), "\r\x1b[K");
            self.shown = false;
        }
    }
}

/// Whatever comes after it stands on a line of its own.
impl Drop for Progress {
    fn drop(&mut self) {
        self.clear();
    }
}
