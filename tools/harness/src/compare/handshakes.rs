//! What a set of traces did with the handshakes of alerts.

use crate::met::Met;
use reference::wires::wire;
use reference::{Handler, Place, Sample};
use std::fmt;

/// Counts over all alerts and ticks of a set.
#[derive(Default)]
pub struct Handshakes {
    /// Where alerts stood, and the wires that came in.
    pub met: Met,
    /// Rises that were taken.
    pub taken: u64,
    /// Rises that waited to the end of the pause and were taken then.
    pub waited: u64,
    /// Rises in the pause that were gone in the next tick.
    pub gone: u64,
    /// Equal wires in the tick in which an acknowledgement was due.
    pub due: u64,
    /// Equal wires in the tick in which one dropped.
    pub dropping: u64,
    /// Alerts that were enabled in the middle of a handshake.
    pub enabled: u64,
    /// The tick before: where each alert stood, and whether it was at (1,0).
    last: Vec<(Place, bool)>,
}

impl Handshakes {
    /// Begins a trace.
    pub fn begin(&mut self) {
        self.last.clear();
    }

    /// Takes in a tick: the handler before and after it, and its sample.
    pub fn tick(&mut self, before: &Handler, after: &Handler, sample: &Sample) {
        self.met.tick(before, after, sample);
        for i in 0..before.n as usize {
            let [was, is] = [before, after].map(|handler| handler.receivers[i].place);
            let pair = (wire(&sample.pos, i), wire(&sample.neg, i));
            let taken = was == Place::Ready && is == Place::Acknowledged;
            self.taken += u64::from(taken);
            let [off, on] = [before, after].map(|handler| handler.alerts[i].en);
            self.enabled += u64::from(off < on && was != Place::Ready);
            if let Some((place, high)) = self.last.get(i).copied() {
                let pause = matches!(place, Place::FirstPause | Place::SecondPause);
                let equal = pair.0 == pair.1;
                self.waited += u64::from(taken && high && place == Place::SecondPause);
                self.gone += u64::from(pause && high && pair == (false, true));
                let moved = (place, was);
                self.due += u64::from(equal && moved == (Place::Ready, Place::Acknowledged));
                let drops = (Place::Acknowledged, Place::FirstPause);
                self.dropping += u64::from(equal && moved == drops);
            }
        }
        let alerts = 0..before.n as usize;
        let high = |i| wire(&sample.pos, i) && !wire(&sample.neg, i);
        self.last.clear();
        self.last
            .extend(alerts.map(|i| (before.receivers[i].place, high(i))));
    }
}

impl fmt::Display for Handshakes {
    fn fmt(&self, out: &mut fmt::Formatter) -> fmt::Result {
        write!(out, "{}", self.met)?;
        writeln!(
            out,
            "rises taken {}, after waiting {}, gone in the pause {}; equal wires at a due acknowledgement {}, at its drop {}; enabled in a handshake {}",
            self.taken, self.waited, self.gone, self.due, self.dropping, self.enabled
        )
    }
}
