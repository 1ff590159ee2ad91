//! A line on standard error.
use std::io::{stderr, Write};

/// A standard error that takes nothing ends no command: what is said there is beside the result.
pub fn say(line: &str) {
    let _ = writeln!(stderr(), "tarravane: {line}");
}
