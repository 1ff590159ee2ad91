//! The proved program beside the same written in plain Rust over the reference: both read one trace and print its words.

use super::piped::{piped, Piped};
use super::season::Season;
use crate::report::progress;
use std::fmt;
use std::io;
use std::path::Path;

/// The lengths that are timed: a million records, ten times and a hundred times
/// as many, and a year of one tick a second.
pub const TRACES: [usize; 4] = [1_000_000, 10_000_000, 31_536_000, 100_000_000];

/// The line above the times.
pub const PROGRAMS_TITLE: &str =
    "a season, N = 248     records   wall s  processor s  ns a tick  memory KiB  replay/plain";

/// The bytes of a word and its line end.
const LINE: u64 = 17;

/// One trace through both programs.
pub struct Programs {
    records: usize,
    replay: Piped,
    plain: Piped,
    /// Whether both printed the same, a word for each record.
    pub equal: bool,
}

/// Times both programs on so many records of a season, one after the other.
pub fn time_programs(
    [replay, plain]: [&Path; 2],
    season: &Season,
    records: usize,
) -> io::Result<Programs> {
    let run = |name: &str, path| {
        progress(format_args!("{name}: {records} records"));
        piped(path, season, records)
    };
    let replay = run("replay", replay)?;
    let plain = run("plain Rust", plain)?;
    let printed = |run: &Piped| (run.printed, run.sum);
    let whole = replay.printed == LINE * records as u64;
    Ok(Programs {
        records,
        equal: whole && printed(&replay) == printed(&plain),
        replay,
        plain,
    })
}

impl fmt::Display for Programs {
    fn fmt(&self, out: &mut fmt::Formatter) -> fmt::Result {
        let records = self.records;
        for (name, run) in [("replay", &self.replay), ("plain Rust", &self.plain)] {
            let (wall, own) = (run.wall.as_secs_f64(), run.processor.as_secs_f64());
            let (each, memory) = (own * 1e9 / records as f64, run.memory);
            write!(
                out,
                "{name:<17} {records:>11} {wall:>8.2} {own:>12.2} {each:>10.1} {memory:>11}"
            )?;
            if name == "replay" {
                writeln!(out)?;
            }
        }
        let ratio = self.replay.processor.as_secs_f64() / self.plain.processor.as_secs_f64();
        write!(out, " {ratio:>13.2}")?;
        if !self.equal {
            write!(out, "  DIFFERENT")?;
        }
        Ok(())
    }
}
