//! The golden set: kept once, and a program held against it.

use crate::commands::tell;
use crate::sets::program;
use crate::trouble::Trouble;
use harness::golden::{cases, compare, listed, Golden, Kept, Other};
use harness::report::verdict;
use std::fs::read_to_string;
use std::io::{self, Write};
use std::time::Instant;

/// The file that the repository keeps, from its top folder.
pub const FILE: &str = "tools/harness/golden.txt";

/// The first line of the file.
const TITLE: &str =
    "# edition, kind, seed, checksum of the trace, checksum of the words: harness golden REPLAY --write";

/// Prints the set as the program gives it.
pub fn keep(path: &str) -> Result<bool, Trouble> {
    let mut lines = vec![TITLE.to_string()];
    for case in cases() {
        let golden = Golden::of(&program(path), case);
        lines.push(golden.map_err(Trouble::Run)?.0.to_string());
    }
    let mut out = io::stdout();
    let printed = writeln!(out, "{}", lines.join("\n")).and_then(|()| out.flush());
    verdict(true, printed).map_err(Trouble::Write)
}

/// Holds the program against the file.
pub fn hold(path: &str, file: &str) -> Result<bool, Trouble> {
    let begin = Instant::now();
    let text = read_to_string(file).map_err(|error| Trouble::Read(format!("{file}: {error}")))?;
    let traces = listed(&text)
        .map_err(|line| Trouble::Read(format!("{file}: line {line} names no trace")))?;
    if traces.is_empty() {
        return Err(Trouble::Read(format!("{file}: no traces")));
    }
    let mut kept = Kept::default();
    let found = compare(&program(path), &traces, &mut kept).map_err(Trouble::Run)?;
    let command = |other: &Other| {
        let (kind, seed) = (other.kept.kind.name(), other.kept.seed);
        let (path, edition) = (program(path), other.kept.edition.name());
        format!(
            "repeat {} {kind} {seed} --edition {edition}",
            path.display()
        )
    };
    tell(begin, &kept, found, command)
}
