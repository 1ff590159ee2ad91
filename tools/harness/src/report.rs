//! What the commands print. A reader that goes away is no failure; any other write that fails is told.

use std::fmt::Display;
use std::io::{self, ErrorKind, Write};
use std::time::Instant;

/// The verdict, where it could be printed or nobody reads on.
pub fn verdict(equal: bool, printed: io::Result<()>) -> io::Result<bool> {
    match printed {
        Err(error) if error.kind() != ErrorKind::BrokenPipe => Err(error),
        _ => Ok(equal),
    }
}

/// Progress on standard error: it may be lost, and the work goes on.
pub fn progress(line: impl Display) {
    let _ = writeln!(io::stderr(), "{line}");
}

/// Prints the outcome, and for a difference the words after the harness's own
/// name that repeat it.
pub fn report<D: Display>(
    out: &mut impl Write,
    begin: Instant,
    summary: &impl Display,
    found: Option<&D>,
    command: impl Fn(&D) -> String,
) -> io::Result<()> {
    writeln!(out, "{summary}")?;
    writeln!(out, "time {:.1} seconds", begin.elapsed().as_secs_f64())?;
    let found = match found {
        Some(found) => found,
        None => return writeln!(out, "EQUAL"),
    };
    writeln!(out, "{found}")?;
    let own = std::env::args().next().unwrap_or_default();
    writeln!(out, "repeat: {own} {}", command(found))
}
