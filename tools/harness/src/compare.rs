//! Compares a program with the reference, trace by trace, to the byte.

mod alone;
mod case;
mod coverage;
mod difference;
mod expected;
mod handshakes;
mod locking;
mod program;
mod shadowed;

pub use case::{damage, generated, in_turn, Case, DEFAULT_SEED, DEFAULT_TRACES};
pub use coverage::{Coverage, ANSWERS};
pub use difference::Difference;
pub use expected::expected;

pub(crate) use program::{ended, program};

use std::io;
use std::path::Path;

/// Runs a case; gives the difference with the shortest prefix that shows it.
pub fn compare(path: &Path, case: Case, coverage: &mut Coverage) -> io::Result<Option<Difference>> {
    let (whole, line) = match once(path, case, coverage)? {
        Some((whole, line)) => (whole, line),
        None => return Ok(None),
    };
    // A word depends only on the records up to its own, so the first wrong
    // word names the prefix. A program may differ there too: try it.
    let short = Case {
        records: Some(line + 1),
        ..case
    };
    if short.bytes().len() < case.bytes().len() {
        if let Some((found, _)) = once(path, short, &mut Coverage::default())? {
            return Ok(Some(found));
        }
    }
    Ok(Some(whole))
}

/// Runs a case; gives the difference as it stands and its line.
fn once(
    path: &Path,
    case: Case,
    coverage: &mut Coverage,
) -> io::Result<Option<(Difference, usize)>> {
    let bytes = case.bytes();
    let wanted = expected(&bytes, coverage);
    let ran = program(path, &bytes)?;
    let ended = ended(&ran);
    if ended.is_none() && ran.output == wanted {
        return Ok(None);
    }
    let line = first_line(&wanted, &ran.output);
    let found = Difference {
        program: path.to_path_buf(),
        case,
        expected: line_at(&wanted, line),
        got: line_at(&ran.output, line),
        ended,
    };
    Ok(Some((found, line)))
}

/// The line in which two texts first differ.
fn first_line(a: &[u8], b: &[u8]) -> usize {
    let same = a.iter().zip(b).take_while(|(x, y)| x == y).count();
    a[..same].iter().filter(|byte| **byte == b'\n').count()
}

/// A line as it can be shown, with its newline visible.
fn line_at(text: &[u8], line: usize) -> String {
    match text.split_inclusive(|byte| *byte == b'\n').nth(line) {
        // A program may print anything, so a long line is shown in part.
        Some(found) => found[..found.len().min(60)].escape_ascii().to_string(),
        None => "(nothing)".to_string(),
    }
}

/// Compares cases until one differs or there are no more.
pub fn compare_all(
    path: &Path,
    cases: impl Iterator<Item = Case>,
    coverage: &mut Coverage,
) -> io::Result<Option<Difference>> {
    for case in cases {
        let found = compare(path, case, coverage)?;
        if found.is_some() {
            return Ok(found);
        }
    }
    Ok(None)
}
