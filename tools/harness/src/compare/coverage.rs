//! What a set of traces reached, taken from the reference while it runs.

use super::handshakes::Handshakes;
use super::locking::Locking;
use super::shadowed::Shadowed;
use crate::record::{Head, NONE, READ};
use crate::turns::Turns;
use crate::wired::Wired;
use handler::Edition;
use reference::handler::CLASSES;
use reference::Handler;
use std::collections::BTreeSet;
use std::fmt;

/// The refusals that a tick of a trace gets, 0 for none.
pub const ANSWERS: [usize; 8] = [0, 1, 2, 3, 4, 5, 12, 14];

/// Counts over all traces of a set.
#[derive(Default)]
pub struct Coverage {
    /// Traces run.
    pub traces: u64,
    /// Ticks run.
    pub ticks: u64,
    /// Ticks whose access was an answered read.
    pub reads: u64,
    /// Ticks that read, were refused, or had an interrupt or line on.
    pub showing: u64,
    /// Ticks by refusal number, 0 for accepted.
    pub answers: [u64; 15],
    /// Traces with a missing or refused N.
    pub no_handler: u64,
    /// Traces with a cut end.
    pub cut: u64,
    /// Ticks by class and the STATE reached.
    pub states: [[u64; 8]; CLASSES],
    /// Changes of STATE, from and to, over all classes.
    pub moves: [[u64; 8]; 8],
    /// Starts with LOCK set.
    pub locked_starts: u64,
    /// Ticks with a line on.
    pub lines: [u64; 4],
    /// Ticks with an interrupt out.
    pub interrupts: [u64; 4],
    /// Classes times ticks with ACCUM_CNT at 65535.
    pub full: u64,
    /// The numbers of alerts asked for, 0 if none.
    pub counts: BTreeSet<u64>,
    /// Registers with an accepted access: the edition's name and the number.
    pub registers: BTreeSet<(&'static str, u16)>,
    /// Alerts with a cause at the end of a trace.
    pub causes: BTreeSet<usize>,
    /// Alerts whose event was the only one of a tick.
    pub lone_events: BTreeSet<usize>,
    /// Alerts that alone of the enabled ones had equal wires, with local 2
    /// enabled.
    pub lone_equal: BTreeSet<usize>,
    /// What became of handshakes.
    pub handshakes: Handshakes,
    /// What became of stages.
    pub shadowed: Shadowed,
    /// What became of class locks by thresholds of 65534 and 65535.
    pub locking: Locking,
    /// What the ping timer did.
    pub turns: Turns,
    /// What the lines met.
    pub wired: Wired,
}

impl Coverage {
    /// Takes in the access of a tick and the word it gave.
    pub fn access(&mut self, edition: Edition, head: Head, word: u64) {
        let refusal = (word >> 52) & 15;
        let read = head.kind == READ;
        self.answers[refusal as usize] += 1;
        self.reads += u64::from(read && refusal == 0);
        self.showing += u64::from(read || word >> 52 != 0);
        if refusal == 0 && head.kind != NONE {
            self.registers.insert((edition.name(), head.register));
        }
    }

    /// Takes in one tick: the handler before and after, and the word it gave.
    pub fn tick(&mut self, before: &Handler, after: &Handler, word: u64) {
        self.ticks += 1;
        for bit in 0..4 {
            self.interrupts[bit] += (word >> (63 - bit)) & 1;
            self.lines[bit] += (word >> (59 - bit)) & 1;
        }
        for (k, class) in after.classes.iter().enumerate() {
            let from = usize::from(before.classes[k].state);
            let to = usize::from(class.state);
            self.states[k][to] += 1;
            self.full += u64::from(class.accum_cnt == u16::MAX);
            if from != to {
                self.moves[from][to] += 1;
                self.locked_starts += u64::from(to == 4 && class.lock());
            }
        }
    }
}

impl Coverage {
    /// Takes in the handler after the last tick of a trace.
    pub fn end(&mut self, handler: &Handler) {
        let alerts = handler.alerts.iter().enumerate();
        let caused = alerts.filter(|(_, alert)| alert.cause == 1);
        self.causes.extend(caused.map(|(i, _)| i));
    }
}

impl Coverage {
    /// What the accesses reached.
    fn write_accesses(&self, out: &mut fmt::Formatter) -> fmt::Result {
        let part = |count: u64| 100 * count / self.ticks.max(1);
        writeln!(out, "traces {}, ticks {}", self.traces, self.ticks)?;
        writeln!(
            out,
            "ticks that read {}%, that show something {}%",
            part(self.reads),
            part(self.showing)
        )?;
        write!(out, "answers: accepted {}", self.answers[0])?;
        for number in &ANSWERS[1..] {
            write!(out, ", refusal {number}: {}", self.answers[*number])?;
        }
        writeln!(out, ", refusal 6: {}", self.no_handler)?;
        writeln!(out, "cut ends {}, N {:?}", self.cut, self.counts)?;
        writeln!(
            out,
            "registers accessed {}, alerts with a cause {}",
            self.registers.len(),
            self.causes.len()
        )?;
        write!(out, "{}{}{}", self.handshakes, self.turns, self.wired)?;
        write!(out, "{}", self.shadowed)?;
        write!(out, "{}", self.locking)
    }

    /// What the classes reached.
    fn write_classes(&self, out: &mut fmt::Formatter) -> fmt::Result {
        for (k, states) in self.states.iter().enumerate() {
            write!(out, "class {k} states:")?;
            for state in [0, 1, 4, 5, 6, 7, 3] {
                write!(out, " {state}: {}", states[state])?;
            }
            writeln!(out)?;
        }
        write!(out, "moves:")?;
        for (from, row) in self.moves.iter().enumerate() {
            for (to, count) in row.iter().enumerate().filter(|entry| *entry.1 > 0) {
                write!(out, " {from}>{to}: {count}")?;
            }
        }
        writeln!(out, "; starts under LOCK {}", self.locked_starts)?;
        writeln!(
            out,
            "lines on {:?}, interrupts on {:?}",
            self.lines, self.interrupts
        )?;
        write!(out, "class ticks with a full accumulator {}", self.full)
    }
}

impl fmt::Display for Coverage {
    fn fmt(&self, out: &mut fmt::Formatter) -> fmt::Result {
        self.write_accesses(out)?;
        self.write_classes(out)
    }
}
