//! A dump that is written tick by tick: after its head only what changes.
use super::alerts::Last;
use super::head::{self, Head};
use super::id::id;
use super::signal::{Scope, Signal};
use super::value::Value;
use crate::alert_bits::{is_set, AlertBits};
use crate::facts::tick::Tick;
use std::fmt::Write as _;
use std::io::{self, Write};

/// A signal, and what it was last.
struct Shown {
    signal: Signal,
    id: String,
    last: Value,
}

impl Shown {
    /// Can the signal be another one, where these alerts changed?
    fn may_change(&self, alerts: &AlertBits) -> bool {
        self.signal.alert().map_or(true, |i| is_set(alerts, i))
    }
}

pub struct Dump<'a> {
    out: &'a mut dyn Write,
    shown: Vec<Shown>,
    alerts: Last,
    /// The identifier of what is said of the trace's end.
    end: String,
    /// The time that was written last, and what is written at the next.
    time: u64,
    lines: String,
}

impl<'a> Dump<'a> {
    /// Writes the head, and at #0 what there is before the first tick.
    pub fn begin(
        out: &'a mut dyn Write,
        head: &Head,
        scopes: &[Scope],
        zero: &Tick,
    ) -> io::Result<Dump<'a>> {
        head::write(out, head, scopes)?;
        let signals = scopes.iter().flat_map(|scope| &scope.signals);
        let shown = signals.enumerate().map(|(number, signal)| Shown {
            signal: *signal,
            id: id(number),
            last: signal.value(zero),
        });
        let shown: Vec<Shown> = shown.collect();
        let mut dump = Dump {
            out,
            alerts: Last::default(),
            end: id(shown.len()),
            shown,
            time: 0,
            lines: String::new(),
        };
        dump.write_first()?;
        Ok(dump)
    }

    fn write_first(&mut self) -> io::Result<()> {
        for Shown { id, last, .. } in &self.shown {
            last.add_line(id, &mut self.lines);
        }
        Value::text("-").add_line(&self.end, &mut self.lines);
        write!(self.out, "#0\n$dumpvars\n{}$end\n", self.lines)
    }

    /// What the tick changes; nothing where it changes nothing.
    pub fn add(&mut self, t: &Tick) -> io::Result<()> {
        let alerts = self.alerts.go_on(t);
        self.lines.clear();
        for shown in &mut self.shown {
            if !shown.may_change(&alerts) {
                continue;
            }
            let value = shown.signal.value(t);
            if value != shown.last {
                value.add_line(&shown.id, &mut self.lines);
                shown.last = value;
            }
        }
        match self.lines.is_empty() {
            true => Ok(()),
            false => self.write_lines(t.number),
        }
    }

    /// Writes the lines of a time, which is written once.
    fn write_lines(&mut self, time: u64) -> io::Result<()> {
        if self.time != time {
            writeln!(self.out, "#{time}")?;
            self.time = time;
        }
        self.out.write_all(self.lines.as_bytes())
    }

    /// How the trace ends is said in its last tick, which lasts up to the time after it.
    pub fn end(mut self, ticks: u64, how: &str) -> io::Result<()> {
        self.lines.clear();
        Value::text(how.to_string()).add_line(&self.end, &mut self.lines);
        // A string takes all that is written.
        let _ = writeln!(self.lines, "#{}", ticks + 1);
        self.write_lines(ticks)
    }
}

/// The dump of a trace without ticks, which says why.
pub fn refused(out: &mut dyn Write, head: &Head, why: &str) -> io::Result<()> {
    head::write(out, head, &[])?;
    let mut line = String::new();
    Value::text(why.to_string()).add_line(&id(0), &mut line);
    write!(out, "#0\n{line}#1\n")
}
