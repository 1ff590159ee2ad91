//! What a picture shows of the alerts in one tick, or in several that are folded.
use crate::alert_bits::{self, is_set, put, AlertBits};
use crate::facts::events::{self, is_enabled};
use crate::facts::receivers::{at, ping_levels, BUSY};
use crate::facts::tick::Tick;
use crate::facts::timer::pinged;
use crate::facts::wires;
use handler::{Place, LOCALS, WORDS};
use std::array::from_fn;

/// The alerts for which something holds: in some of the ticks, and in all of them.
#[derive(Clone, Copy, Debug, PartialEq, Eq)]
pub struct Over {
    pub some: AlertBits,
    pub all: AlertBits,
}

impl Over {
    fn new(bits: AlertBits) -> Over {
        Over {
            some: bits,
            all: bits,
        }
    }

    fn joined(&self, next: &Over) -> Over {
        Over {
            some: from_fn(|word| self.some[word] | next.some[word]),
            all: from_fn(|word| self.all[word] & next.all[word]),
        }
    }
}

#[derive(Clone, Debug)]
pub struct Alerts {
    /// At (1,0).
    pub raised: Over,
    /// With equal wires.
    pub broken: Over,
    /// Whose receiver stands at each place but ready, in the order of the handshake.
    busy: [Over; BUSY.len()],
    /// Whose ping pair is (1,0), and whose ping is open.
    pub pings: Over,
    pinged: Over,
    /// With an event while enabled, and while disabled.
    pub events: AlertBits,
    pub disabled: AlertBits,
    pub locals: [bool; LOCALS],
    /// Events, and local alerts that occur.
    pub count: u64,
}

impl Alerts {
    pub fn new(t: &Tick) -> Alerts {
        let (mut enabled, mut disabled) = ([0; WORDS], [0; WORDS]);
        for i in events::alerts(t) {
            let bits = if is_enabled(&t.after, i) {
                &mut enabled
            } else {
                &mut disabled
            };
            put(bits, i, true);
        }
        let mut locals = [false; LOCALS];
        events::locals(t).for_each(|j| locals[j] = true);
        let count = alert_bits::count(events::bits(t)) as usize + events::locals(t).count();
        Alerts {
            raised: Over::new(wires::raised(t)),
            broken: Over::new(wires::broken(t)),
            busy: BUSY.map(|place| Over::new(at(t, place))),
            pings: Over::new(ping_levels(t)),
            pinged: Over::new(pinged(t)),
            events: enabled,
            disabled,
            locals,
            count: count as u64,
        }
    }

    pub fn joined(&self, next: &Alerts) -> Alerts {
        let or = |a: &AlertBits, b: &AlertBits| from_fn(|word| a[word] | b[word]);
        Alerts {
            raised: self.raised.joined(&next.raised),
            broken: self.broken.joined(&next.broken),
            busy: from_fn(|at| self.busy[at].joined(&next.busy[at])),
            pings: self.pings.joined(&next.pings),
            pinged: self.pinged.joined(&next.pinged),
            events: or(&self.events, &next.events),
            disabled: or(&self.disabled, &next.disabled),
            locals: from_fn(|j| self.locals[j] || next.locals[j]),
            count: self.count + next.count,
        }
    }

    /// The alerts that rose or broke, or whose receiver is not at rest.
    pub fn moved(&self) -> AlertBits {
        let wires = [&self.raised, &self.broken, &self.pings, &self.pinged];
        let over = wires.into_iter().chain(&self.busy);
        let some = over.map(|over| &over.some);
        let all = some.chain([&self.events, &self.disabled]);
        from_fn(|word| all.clone().fold(0, |or, bits| or | bits[word]))
    }

    /// Is a receiver other than ready?
    pub fn are_busy(&self) -> bool {
        self.busy.iter().any(|over| over.some != [0; WORDS])
    }

    /// Where the receiver of an alert stands; nothing where it moved.
    pub fn place(&self, i: usize) -> Option<Place> {
        let mut stands = BUSY.into_iter().zip(&self.busy);
        match stands.find(|(_, over)| is_set(&over.some, i)) {
            Some((place, over)) => is_set(&over.all, i).then_some(place),
            None => Some(Place::Ready),
        }
    }

    /// Does a receiver come to a place other than ready, from the tick before on?
    pub fn go_on(&self, before: &Alerts) -> bool {
        let mut both = self.busy.iter().zip(&before.busy);
        both.any(|(now, last)| (0..WORDS).any(|word| now.some[word] & !last.some[word] != 0))
    }

    /// Are the wires the same as in the tick before?
    pub fn same_wires(&self, before: &Alerts) -> bool {
        (self.raised, self.broken) == (before.raised, before.broken)
    }
}
