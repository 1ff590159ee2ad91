//! The tables of the bench, each row printed when it is known, with progress before it.

use super::boot::{time_boot, BOOTS, BOOT_TITLE};
use super::calm::{calms, time_calm, CALM_TICKS, CALM_TITLE};
use super::dump::{dumped_states, time_dump, DUMPS, DUMP_TITLE};
use super::load::LOADS;
use super::rounds::time;
use super::timed::TITLE;
use super::OLDER_RECORDS;
use crate::report::progress;
use handler::boot::BOOT_ALERTS;
use handler::{Edition, ALERTS};
use std::fmt::Display;
use std::io::{self, Write};

/// Where the rows go, and whether all was equal so far.
pub struct Tables<W> {
    /// The rows.
    pub out: W,
    /// Whether all was equal.
    pub equal: bool,
}

impl<W: Write> Tables<W> {
    /// No rows yet.
    pub fn new(out: W) -> Tables<W> {
        Tables { out, equal: true }
    }

    /// A row, and whether what it tells of was equal.
    pub fn row(&mut self, row: impl Display, equal: bool) -> io::Result<()> {
        self.equal &= equal;
        writeln!(self.out, "{row}")
    }

    /// The last line.
    pub fn end(&mut self) -> io::Result<()> {
        let verdict = if self.equal { "EQUAL" } else { "DIFFERENT" };
        self.row(verdict, true)
    }

    /// The times of every load, of so many records of the newest edition.
    pub fn loads(&mut self, records: usize) -> io::Result<()> {
        if cfg!(debug_assertions) {
            let line = "the reference is not built for release: its times say nothing";
            self.row(line, true)?;
        }
        self.row(TITLE, true)?;
        for (at, (load, name)) in (1..).zip(LOADS) {
            let all = LOADS.len();
            progress(format_args!("{at} of {all}: {name}, {records} records"));
            let timed = time(Edition::NEWEST, load, name, records);
            self.row(&timed, timed.equal)?;
        }
        Ok(())
    }

    /// The times of the first four loads in the older editions.
    pub fn older(&mut self) -> io::Result<()> {
        let editions = Edition::ALL.into_iter();
        for edition in editions.filter(|edition| *edition != Edition::NEWEST) {
            progress(format_args!("records of edition {}", edition.name()));
            for (load, name) in &LOADS[..4] {
                let name = format!("{name} {}", edition.name());
                let timed = time(edition, *load, &name, OLDER_RECORDS);
                self.row(&timed, timed.equal)?;
            }
        }
        Ok(())
    }

    /// The times of boots, dumps and calm ticks.
    pub fn calls(&mut self) -> io::Result<()> {
        progress("boots, dumps and calm ticks");
        self.row(BOOT_TITLE, true)?;
        for n in [BOOT_ALERTS, ALERTS] {
            let timed = time_boot(n, BOOTS);
            self.row(&timed, timed.equal)?;
        }
        self.row(DUMP_TITLE, true)?;
        for state in dumped_states() {
            for timed in time_dump(state, DUMPS) {
                self.row(&timed, timed.equal)?;
            }
        }
        self.row(CALM_TITLE, true)?;
        for calm in calms() {
            for ticks in CALM_TICKS {
                let timed = time_calm(&calm, ticks);
                self.row(&timed, timed.equal)?;
            }
        }
        Ok(())
    }
}
