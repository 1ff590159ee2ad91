//! What the alerts' receivers met: where they stood, and what came in.

use reference::wires::wire;
use reference::{Handler, Sample};
use std::fmt;

/// The places of a handshake, in its order.
const PLACES: [&str; 4] = ["ready", "acknowledged", "first pause", "second pause"];
/// The pairs of wires, as they are counted.
const PAIRS: [&str; 4] = ["(0,0)", "(0,1)", "(1,0)", "(1,1)"];

/// How an alert's ping stands in a tick.
const NONE: usize = 0;
const OPEN: usize = 1;
const OPENS: usize = 2;

/// Ticks of single alerts below N.
#[derive(Default)]
pub struct Met {
    /// By place, by the ping (none, open before the tick, opens in it), and by
    /// the pair of wires.
    pub cases: [[[u64; 4]; 3]; 4],
}

impl Met {
    /// Takes in a tick: the handler before and after it, and its sample.
    pub fn tick(&mut self, before: &Handler, after: &Handler, sample: &Sample) {
        for i in 0..before.n as usize {
            let [was, is] = [before, after].map(|handler| handler.receivers[i]);
            // A ping that opens changes its level.
            let ping = match (was.open, was.ping != is.ping) {
                (true, _) => OPEN,
                (false, true) => OPENS,
                (false, false) => NONE,
            };
            let pair = 2 * usize::from(wire(&sample.pos, i)) + usize::from(wire(&sample.neg, i));
            self.cases[was.place as usize][ping][pair] += 1;
        }
    }

    /// The least count of all cases.
    pub fn least(&self) -> u64 {
        let cases = self.cases.iter().flatten().flatten();
        cases.copied().min().unwrap_or(0)
    }

    /// The ticks in a place with this pair of wires, whatever the pings.
    pub fn at(&self, place: usize, pair: usize) -> u64 {
        self.cases[place].iter().map(|pairs| pairs[pair]).sum()
    }

    /// The ticks in a place with a ping that was open, and with one that opens.
    fn pinged(&self, place: usize) -> [u64; 2] {
        [OPEN, OPENS].map(|ping| self.cases[place][ping].iter().sum())
    }
}

impl fmt::Display for Met {
    fn fmt(&self, out: &mut fmt::Formatter) -> fmt::Result {
        write!(out, "alert ticks by place and wires:")?;
        for (place, name) in PLACES.iter().enumerate() {
            write!(out, "{} {name}", if place > 0 { ";" } else { "" })?;
            for (pair, wires) in PAIRS.iter().enumerate() {
                write!(out, " {wires} {}", self.at(place, pair))?;
            }
        }
        let pinged = [0, 1, 2, 3].map(|place| self.pinged(place));
        if pinged == [[0; 2]; 4] {
            return writeln!(out);
        }
        write!(out, "\npings of alerts, open and opening:")?;
        for (at, (name, [open, opens])) in PLACES.iter().zip(pinged).enumerate() {
            write!(
                out,
                "{} {name} {open}, {opens}",
                if at > 0 { ";" } else { "" }
            )?;
        }
        writeln!(out)
    }
}
