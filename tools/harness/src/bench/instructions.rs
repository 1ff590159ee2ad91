//! Instructions a tick: callgrind counts those of one batch call, of two lengths, and the difference is that of the records between.
//! They do not hang on the machine's load.

use super::load::{load, Load, Made};
use super::rounds::{proved_round, reference_round};
use crate::calls::handler_of;
use handler::{Edition, Word};
use std::fmt;
use std::io::{self, Error, ErrorKind};
use std::path::Path;
use std::process::{Command, Stdio};

/// Whose batch is called.
#[derive(Clone, Copy, Debug, PartialEq, Eq)]
pub enum Side {
    /// The proved library's.
    Proved,
    /// The reference's.
    Reference,
}

/// Both with the word that names them.
pub const SIDES: [(Side, &str); 2] = [(Side::Proved, "proved"), (Side::Reference, "reference")];

impl Side {
    /// The side of this name.
    pub fn named(name: &str) -> Option<Side> {
        let found = SIDES.into_iter().find(|it| it.1 == name);
        found.map(|it| it.0)
    }
}

/// The lengths: a season's boot is in both, and two of its alerts between them.
pub const LENGTHS: [usize; 2] = [10_000, 30_000];

/// The line above the counts.
pub const INSTRUCTIONS_TITLE: &str =
    "instructions a tick       N   proved  reference  proved/reference";

/// Calls one side's batch once, for callgrind to count.
pub fn call_once(side: Side, kind: Load, records: usize) {
    let edition = Edition::NEWEST;
    let Made { first, bytes } = load(edition, kind, records);
    match side {
        Side::Proved => {
            let mut words = vec![Word(0); records];
            proved_round(handler_of(&first), edition, &bytes, &mut words);
        }
        Side::Reference => {
            reference_round(first, edition, &bytes, &mut vec![0; records]);
        }
    }
}

/// The instructions a tick of both sides.
pub struct Counted {
    /// The load's name.
    pub name: &'static str,
    /// Those of the proved library, and of the reference.
    pub sides: [f64; 2],
}

impl Counted {
    /// Counts a load by `own`, a harness.
    pub fn of(own: &Path, name: &'static str) -> io::Result<Counted> {
        let mut sides = [0.0; 2];
        for (at, (_, side)) in SIDES.into_iter().enumerate() {
            let [short, long] = LENGTHS.map(|records| collected(own, side, name, records));
            let more = long?.saturating_sub(short?) as f64;
            sides[at] = more / (LENGTHS[1] - LENGTHS[0]) as f64;
        }
        Ok(Counted { name, sides })
    }
}

impl fmt::Display for Counted {
    fn fmt(&self, out: &mut fmt::Formatter) -> fmt::Result {
        let (name, [proved, reference]) = (self.name, self.sides);
        let (n, ratio) = (Edition::NEWEST.alerts(), proved / reference);
        write!(
            out,
            "{name:<23} {n:>3} {proved:>8.0} {reference:>10.0} {ratio:>17.2}"
        )
    }
}

/// What callgrind collected inside one call of a side's batch.
fn collected(own: &Path, side: &str, name: &str, records: usize) -> io::Result<u64> {
    let run = Command::new("valgrind")
        .args(["--tool=callgrind", "--callgrind-out-file=/dev/null"])
        .arg(format!("--toggle-collect=*{side}_round*"))
        .arg(own)
        .args(["once", side, name, "--records", &records.to_string()])
        .stdin(Stdio::null())
        .output()
        .map_err(|error| Error::new(error.kind(), format!("valgrind: {error}")))?;
    let said = String::from_utf8_lossy(&run.stderr);
    let number = said.lines().find_map(told);
    match number.filter(|number| *number > 0 && run.status.success()) {
        Some(number) => Ok(number),
        None => Err(Error::new(
            ErrorKind::Other,
            format!("valgrind counted nothing: {said}"),
        )),
    }
}

/// The number of callgrind's line `==7== Collected : 123`.
fn told(line: &str) -> Option<u64> {
    let (before, number) = line.split_once(" Collected : ")?;
    before.strip_prefix("==")?;
    number.trim().parse().ok()
}

#[test]
fn callgrinds_line_is_read() {
    assert_eq!(told("==7== Collected : 123"), Some(123));
    assert_eq!(told("==7== Collected : "), None);
    assert_eq!(told("==7== Events    : Ir"), None);
    assert_eq!(told("Collected : 123"), None);
}
