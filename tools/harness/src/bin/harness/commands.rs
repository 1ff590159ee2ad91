//! The commands that ask the proved library, and what all of them print; each says whether all was equal.

use crate::trouble::Trouble;
use harness::boot::{self, try_boots};
use harness::calm::{self, try_calms, DEFAULT_CALMS};
use harness::compare::Case;
use harness::dump::{self, try_dumps, DEFAULT_DUMPS};
use harness::report::{report, verdict};
use harness::states::{self, try_all};
use harness::write::{self, try_lists};
use std::fmt::Display;
use std::io::{self, Write};
use std::time::Instant;

/// Writes a trace's bytes to standard output.
pub fn print_trace(case: Case) -> Result<bool, Trouble> {
    let mut out = io::stdout();
    let written = out.write_all(&case.bytes()).and_then(|()| out.flush());
    verdict(true, written).map_err(Trouble::Write)
}

/// Tries damaged states and prints how many were refused.
pub fn damaged_states(seed: u64, states: u64) -> Result<bool, Trouble> {
    let begin = Instant::now();
    let mut summary = states::Summary::default();
    let found = try_all(&states::PROVED, seed, states, &mut summary);
    tell(begin, &summary, found, |found| {
        format!("states --states 1 --seed {}", found.seed)
    })
}

/// Tries boots and prints how many came to their end.
pub fn boots(seed: u64, boots: u64) -> Result<bool, Trouble> {
    let begin = Instant::now();
    let mut summary = boot::Summary::default();
    let found = try_boots(boot::PROVED, seed, boots, &mut summary);
    tell(begin, &summary, found, |found| {
        format!("boot --boots 1 --seed {}", found.seed)
    })
}

/// Tries calm calls and prints what they met. The default set must meet every
/// kind.
pub fn calms(seed: u64, states: u64) -> Result<bool, Trouble> {
    let begin = Instant::now();
    let mut summary = calm::Summary::default();
    let found = try_calms(calm::PROVED, seed, states, &mut summary);
    let missed = match states >= DEFAULT_CALMS && found.is_none() {
        true => summary.missed(),
        false => Vec::new(),
    };
    let equal = tell(begin, &summary, found, |found| {
        format!("calm --states 1 --seed {}", found.seed)
    })?;
    met(equal, &missed)
}

/// Tries dumps and prints what they met. The default set must meet every kind.
pub fn dumps(seed: u64, states: u64) -> Result<bool, Trouble> {
    let begin = Instant::now();
    let mut summary = dump::Summary::default();
    let found = try_dumps(&dump::PROVED, seed, states, &mut summary);
    let missed = match states >= DEFAULT_DUMPS && found.is_none() {
        true => summary.missed(),
        false => Vec::new(),
    };
    let equal = tell(begin, &summary, found, |found| {
        format!("dump --states 1 --seed {}", found.seed)
    })?;
    met(equal, &missed)
}

/// Prints what was never met; says whether all was equal and met.
fn met(equal: bool, missed: &[String]) -> Result<bool, Trouble> {
    let printed = missed
        .iter()
        .try_for_each(|name| writeln!(io::stdout(), "NEVER MET: {name}"));
    verdict(equal && missed.is_empty(), printed).map_err(Trouble::Write)
}

/// Tries lists for the trace writer and prints how many were written.
pub fn written_lists(seed: u64, lists: u64) -> Result<bool, Trouble> {
    let begin = Instant::now();
    let mut summary = write::Summary::default();
    let found = try_lists(&write::PROVED, seed, lists, &mut summary);
    tell(begin, &summary, found, |found| {
        format!("write --lists 1 --seed {}", found.seed)
    })
}

/// Prints the outcome; says whether all was equal.
pub fn tell<D: Display>(
    begin: Instant,
    summary: &impl Display,
    found: Option<D>,
    command: impl Fn(&D) -> String,
) -> Result<bool, Trouble> {
    let printed = report(&mut io::stdout(), begin, summary, found.as_ref(), command);
    verdict(found.is_none(), printed).map_err(Trouble::Write)
}
