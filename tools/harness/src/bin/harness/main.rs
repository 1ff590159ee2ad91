//! The command line of the harness.

mod bench;
mod commands;
mod golden;
mod sets;
mod trouble;
mod words;

use bench::{instructions, once, print_season, programs, times};
use commands::{boots, calms, damaged_states, dumps, print_trace, written_lists};
use golden::{hold, keep, FILE};
use harness::boot::DEFAULT_BOOTS;
use harness::calm::DEFAULT_CALMS;
use harness::compare::{damage, generated, DEFAULT_SEED};
use harness::dump::DEFAULT_DUMPS;
use harness::report::progress;
use harness::states::DEFAULT_STATES;
use harness::write::DEFAULT_LISTS;
use sets::{fuzz, repeat, set};
use std::process::ExitCode;
use trouble::{usage, Trouble};
use words::{case, number, Options};

fn main() -> ExitCode {
    let words: Vec<String> = std::env::args().skip(1).collect();
    match command(words) {
        Ok(true) => ExitCode::SUCCESS,
        Ok(false) => ExitCode::from(1),
        Err(trouble) => {
            progress(format_args!("harness: {trouble}"));
            ExitCode::from(2)
        }
    }
}

/// The options of a set, and of one trace.
const SET: [&str; 3] = ["--traces", "--seed", "--edition"];
const ONE: [&str; 2] = ["--records", "--edition"];

/// The option of what is timed.
const RECORDS: [&str; 1] = ["--records"];

/// The options of a run over states.
const STATES: [&str; 2] = ["--states", "--seed"];

/// A run over states, as many as are asked for, else these.
fn states(
    options: &Options,
    states: u64,
    run: fn(u64, u64) -> Result<bool, Trouble>,
) -> Result<bool, Trouble> {
    let seed = options.get("--seed").unwrap_or(DEFAULT_SEED);
    run(seed, options.get("--states").unwrap_or(states))
}

/// Runs a command; says whether all was equal.
fn command(mut words: Vec<String>) -> Result<bool, Trouble> {
    let options = Options::take(&mut words)?;
    let words: Vec<&str> = words.iter().map(String::as_str).collect();
    let name = words.first().copied().unwrap_or_default();
    let only = |names| options.only(name, names);
    let first = |options: &Options| options.get("--seed").unwrap_or(DEFAULT_SEED);
    match words.as_slice() {
        ["states"] => states(&only(&STATES)?, DEFAULT_STATES, damaged_states),
        ["boot"] => {
            let options = only(&["--boots", "--seed"])?;
            boots(
                first(&options),
                options.get("--boots").unwrap_or(DEFAULT_BOOTS),
            )
        }
        ["calm"] => states(&only(&STATES)?, DEFAULT_CALMS, calms),
        ["dump"] => states(&only(&STATES)?, DEFAULT_DUMPS, dumps),
        ["write"] => {
            let options = only(&["--lists", "--seed"])?;
            let lists = options.get("--lists").unwrap_or(DEFAULT_LISTS);
            written_lists(first(&options), lists)
        }
        ["bench"] => times(&only(&RECORDS)?),
        ["bench", "--instructions"] => only(&[]).and_then(|_| instructions()),
        ["bench", "--program", path, plain] => programs([path, plain], &only(&RECORDS)?),
        ["once", side, load] => once(side, load, &only(&RECORDS)?),
        ["season"] => print_season(&only(&RECORDS)?),
        ["diff", path] => set(path, generated, &only(&SET)?),
        ["damage", path] => set(path, damage, &only(&SET)?),
        ["fuzz", path, seconds] => fuzz(path, number(seconds)?, &only(&["--seed", "--edition"])?),
        ["repeat", path, kind, seed] => repeat(path, case(kind, seed, &only(&ONE)?)?),
        ["trace", kind, seed] => print_trace(case(kind, seed, &only(&ONE)?)?),
        ["golden", path, "--write"] => only(&[]).and_then(|_| keep(path)),
        ["golden", path] => only(&[]).and_then(|_| hold(path, FILE)),
        ["golden", path, file] => only(&[]).and_then(|_| hold(path, file)),
        _ => Err(usage("no such command")),
    }
}
