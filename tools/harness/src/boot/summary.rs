//! What a run over boots reached.

use super::way::WAYS;
use handler::{Handler, Installed, Lifecycle, WORDS};
use std::collections::BTreeSet;
use std::fmt;

/// The answers of a boot that stopped or was refused.
const REFUSED: [i64; 4] = [-3, -7, -12, -13];

/// Counts over all boots of a set.
#[derive(Default)]
pub struct Summary {
    /// Boots tried.
    pub boots: u64,
    /// Boots by the way in which their state was made.
    pub ways: [u64; WAYS.len()],
    /// Boots that came to their end, by lifecycle; the last are of numbers
    /// that are none.
    pub whole: [u64; Lifecycle::ALL.len() + 1],
    /// Of these, ones that began with an alert that had acknowledged, in the
    /// first tick of the pause, in the second, and with an open ping.
    pub links: [u64; 4],
    /// Of these, ones with the ping timer on, ones in which it had another turn
    /// at the end, and ones in which local 0 or 1 occurred.
    pub timer: [u64; 3],
    /// Boots that stopped or were refused, by answer: 3, 7, 12, 13.
    pub refused: [u64; REFUSED.len()],
    /// Boots that stopped in any other way.
    pub other: u64,
    /// The registers at which boots stopped, each with the answer.
    pub stops: BTreeSet<(i64, u16)>,
}

impl Summary {
    /// Takes in a boot by the state before it and what the reference gave.
    pub(super) fn boot(&mut self, state: &Handler, lifecycle: u8, wanted: &Installed) {
        self.boots += 1;
        if wanted.is_whole() {
            self.begins(state);
            self.pinged(state, &wanted.handler);
            let column = usize::from(lifecycle).min(Lifecycle::ALL.len());
            self.whole[column] += 1;
            return;
        }
        let answer = wanted.answer.0;
        match REFUSED.iter().position(|number| *number == answer) {
            Some(at) => self.refused[at] += 1,
            None => self.other += 1,
        }
        if wanted.register != 0 {
            self.stops.insert((answer, wanted.register));
        }
    }
}

impl Summary {
    /// What the ping timer did in a boot that came to its end.
    fn pinged(&mut self, state: &Handler, after: &Handler) {
        let on = state.timer.is_on();
        let turned = state.links.turn.number != after.links.turn.number;
        let cause = |h: &Handler| h.locals.cause[0] + h.locals.cause[1];
        let failed = cause(state) != cause(after);
        for (count, is) in self.timer.iter_mut().zip([on, on && turned, on && failed]) {
            *count += u64::from(is);
        }
    }

    /// Where the receivers stand before a boot that comes to its end.
    fn begins(&mut self, state: &Handler) {
        let handler::Receivers {
            pausing,
            busy,
            pending,
            ..
        } = state.links.receivers;
        let any = |of: fn(u64, u64, u64) -> u64| {
            let word = |w: usize| {
                let live = u64::MAX.checked_shr(state.n.saturating_sub(64 * w) as u32);
                of(pausing[w], busy[w], pending[w]) & !live.unwrap_or(0)
            };
            (0..WORDS).any(|w| word(w) != 0)
        };
        let found = [
            any(|pausing, busy, _| !pausing & busy),
            any(|pausing, busy, _| pausing & busy),
            any(|pausing, busy, _| pausing & !busy),
            any(|_, _, pending| pending),
        ];
        for (count, is) in self.links.iter_mut().zip(found) {
            *count += u64::from(is);
        }
    }
}

impl fmt::Display for Summary {
    fn fmt(&self, out: &mut fmt::Formatter) -> fmt::Result {
        let whole: u64 = self.whole.iter().sum();
        write!(out, "boots {}, to the end: {whole}", self.boots)?;
        for (number, count) in REFUSED.iter().zip(self.refused) {
            write!(out, ", refusal {}: {count}", -number)?;
        }
        write!(out, ", otherwise: {}\nto the end:", self.other)?;
        let names = Lifecycle::ALL.map(Lifecycle::name);
        for (name, count) in names.into_iter().chain(["over 5"]).zip(self.whole) {
            write!(out, " {name} {count}")?;
        }
        let [acknowledged, first, second, open] = self.links;
        write!(
            out,
            "\nbegun with an alert acknowledged {acknowledged}, in the first tick of the pause {first}, in the second {second}, with a ping open {open}"
        )?;
        let [on, turned, failed] = self.timer;
        write!(
            out,
            "\nwith the ping timer on {on}, with other turns at the end {turned}, with a failed ping {failed}"
        )?;
        let at = |answer| self.stops.iter().filter(|stop| stop.0 == answer).count();
        write!(
            out,
            "\nregisters at which they stopped: refusal 3: {}, refusal 12: {}\nstates:",
            at(-3),
            at(-12)
        )?;
        for ((_, name), count) in WAYS.iter().zip(self.ways) {
            write!(out, " {name} {count}")?;
        }
        Ok(())
    }
}
