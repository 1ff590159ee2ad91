//! The commands that compare a program with the reference.

use crate::commands::tell;
use crate::trouble::Trouble;
use crate::words::Options;
use handler::Edition;
use harness::compare::{
    compare, compare_all, in_turn, Case, Coverage, Difference, DEFAULT_SEED, DEFAULT_TRACES,
};
use harness::report::progress;
use std::fmt::{self, Display};
use std::path::{Path, PathBuf};
use std::time::{Duration, Instant, SystemTime, UNIX_EPOCH};

/// A program named without a directory is meant as a file here.
pub fn program(path: &str) -> PathBuf {
    Path::new(".").join(path)
}

/// What a set of one edition reached.
struct Reached(Edition, Coverage);

impl Display for Reached {
    fn fmt(&self, out: &mut fmt::Formatter) -> fmt::Result {
        write!(out, "edition {}\n{}", self.0.name(), self.1)
    }
}

/// The edition that was asked for, or all.
fn editions(options: &Options) -> Vec<Edition> {
    let asked = options.edition();
    asked.map_or(Edition::ALL.to_vec(), |edition| vec![edition])
}

/// Compares a set of each edition and prints what it reached.
pub fn set<I: Iterator<Item = Case>>(
    path: &str,
    cases: impl Fn(Edition, u64) -> I,
    options: &Options,
) -> Result<bool, Trouble> {
    let seed = options.get("--seed").unwrap_or(DEFAULT_SEED);
    let traces = options.get("--traces").unwrap_or(DEFAULT_TRACES);
    for edition in editions(options) {
        let begin = Instant::now();
        let cases = cases(edition, seed).take(traces as usize);
        let mut reached = Reached(edition, Coverage::default());
        let found = compare_all(&program(path), cases, &mut reached.1).map_err(Trouble::Run)?;
        if !tell(begin, &reached, found, Difference::command)? {
            return Ok(false);
        }
    }
    Ok(true)
}

/// Compares fresh traces, the editions in turn, until the time is over.
pub fn fuzz(path: &str, seconds: u64, options: &Options) -> Result<bool, Trouble> {
    let begin = Instant::now();
    let end = begin + Duration::from_secs(seconds);
    let seed = options.get("--seed").unwrap_or_else(fresh_seed);
    let editions = editions(options);
    let mut coverage = Coverage::default();
    let (mut told, mut traces) = (begin, 0);
    progress(format_args!("first seed {seed}"));
    let all = in_turn(editions, seed);
    let cases = all.take_while(|_| {
        let now = Instant::now();
        if now.duration_since(told) > Duration::from_secs(5) {
            told = now;
            let spent = begin.elapsed().as_secs();
            progress(format_args!(
                "{spent} of {seconds} seconds, {traces} traces equal"
            ));
        }
        traces += 1;
        now < end
    });
    let found = compare_all(&program(path), cases, &mut coverage).map_err(Trouble::Run)?;
    tell(begin, &coverage, found, Difference::command)
}

/// A seed from the clock, small enough to type.
fn fresh_seed() -> u64 {
    let now = SystemTime::now().duration_since(UNIX_EPOCH);
    now.map_or(DEFAULT_SEED, |since| since.as_micros() as u64)
}

/// Compares one trace again.
pub fn repeat(path: &str, case: Case) -> Result<bool, Trouble> {
    let begin = Instant::now();
    let mut coverage = Coverage::default();
    let found = compare(&program(path), case, &mut coverage).map_err(Trouble::Run)?;
    tell(begin, &coverage, found, Difference::command)
}
