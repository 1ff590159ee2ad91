//! The commands that time and count. Each says whether all was equal.

use crate::sets::program;
use crate::trouble::{usage, Trouble};
use crate::words::Options;
use harness::bench::{call_once, time_programs, Counted, Load, Season, Side, Tables};
use harness::bench::{INSTRUCTIONS_TITLE, LOADS, PROGRAMS_TITLE, RECORDS, TRACES};
use harness::report::{progress, verdict};
use std::io::{self, ErrorKind, Stdout, Write};

/// What tables are printed to.
type Printed = Tables<Stdout>;

/// Prints tables; a reader that goes away ends them.
fn tables(print: impl FnOnce(&mut Printed) -> Result<(), Trouble>) -> Result<bool, Trouble> {
    let mut tables = Tables::new(io::stdout());
    match print(&mut tables) {
        Err(Trouble::Write(error)) if error.kind() == ErrorKind::BrokenPipe => {}
        printed => printed?,
    }
    Ok(tables.equal)
}

/// The most records of a batch, all in memory.
const IN_MEMORY: u64 = 10_000_000;
/// The most of a trace that goes through a pipe.
const PIPED: u64 = 999_999_999;

/// The records that are asked for, from one to so many.
fn asked(options: &Options, most: u64) -> Result<Option<usize>, Trouble> {
    match options.get("--records") {
        Some(records) if !(1..=most).contains(&records) => {
            Err(usage(format!("--records needs a number from 1 to {most}")))
        }
        records => Ok(records.map(|records| records as usize)),
    }
}

/// The times of every load; and unless their length is asked for, those of
/// older editions, boots, dumps and calm ticks.
pub fn times(options: &Options) -> Result<bool, Trouble> {
    let asked = asked(options, IN_MEMORY)?;
    let print = |tables: &mut Printed| {
        tables.loads(asked.unwrap_or(RECORDS))?;
        if asked.is_none() {
            tables.older()?;
            tables.calls()?;
        }
        tables.end()
    };
    tables(|tables| print(tables).map_err(Trouble::Write))
}

/// The instructions a tick of every load, by callgrind over this program.
pub fn instructions() -> Result<bool, Trouble> {
    let own = std::env::current_exe().map_err(Trouble::Run)?;
    tables(|tables| {
        let title = tables.row(INSTRUCTIONS_TITLE, true);
        title.map_err(Trouble::Write)?;
        for (at, (_, name)) in (1..).zip(LOADS) {
            progress(format_args!("{at} of {}: {name}", LOADS.len()));
            let counted = Counted::of(&own, name).map_err(Trouble::Run)?;
            tables.row(&counted, true).map_err(Trouble::Write)?;
        }
        Ok(())
    })
}

/// The times of a program and of one in plain Rust on seasons.
pub fn programs(both: [&str; 2], options: &Options) -> Result<bool, Trouble> {
    let lengths = asked(options, PIPED)?.map_or(TRACES.to_vec(), |records| vec![records]);
    let [replay, plain] = both.map(program);
    tables(|tables| {
        let title = tables.row(PROGRAMS_TITLE, true);
        title.map_err(Trouble::Write)?;
        let season = Season::new(lengths.iter().max().copied().unwrap_or(0));
        for records in lengths {
            let timed = time_programs([&replay, &plain], &season, records).map_err(Trouble::Run)?;
            tables.row(&timed, timed.equal).map_err(Trouble::Write)?;
        }
        tables.end().map_err(Trouble::Write)
    })
}

/// One call of a side's batch on a load, for callgrind to count.
pub fn once(side: &str, load: &str, options: &Options) -> Result<bool, Trouble> {
    let side = Side::named(side).ok_or_else(|| usage(format!("no side {side}")))?;
    let load = Load::named(load).ok_or_else(|| usage(format!("no load {load}")))?;
    let records = asked(options, IN_MEMORY)?;
    call_once(side, load, records.unwrap_or(RECORDS));
    Ok(true)
}

/// Writes a season as a trace to standard output.
pub fn print_season(options: &Options) -> Result<bool, Trouble> {
    let records = asked(options, PIPED)?.unwrap_or(RECORDS);
    let mut out = io::stdout();
    let season = Season::new(records);
    let written = out.write_all(&Season::opening()).and_then(|()| {
        let mut pieces = season.pieces(records);
        pieces.try_for_each(|piece| out.write_all(piece))?;
        out.flush()
    });
    verdict(true, written).map_err(Trouble::Write)
}
