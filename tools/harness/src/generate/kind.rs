//! The kinds of traces.

use handler::Edition;

/// What a trace is about.
#[derive(Clone, Copy, Debug, PartialEq, Eq)]
pub enum Kind {
    /// Everything a little.
    Mixed,
    /// Starts, short phases, Terminal, clears.
    Escalate,
    /// Interrupt timeouts, with few triggers.
    Timeout,
    /// Many events against small thresholds.
    Accumulate,
    /// LOCK, the REGWENs and writes that meet them.
    Locks,
    /// Refused accesses and malformed records.
    Refusals,
    /// Every register number written, then read; then every alert raised.
    Sweep,
    /// Any N, few records, cut ends, no bytes at all.
    Ends,
    /// An accumulator driven to 65535, and long phases in another class.
    Full,
    /// Random bytes.
    Noise,
    /// A generated trace with flipped bits, lost bytes or added bytes.
    Damaged,
    /// Stages: first, equal and differing writes, and what comes between them.
    Shadow,
    /// Thresholds of 65534 and 65535, EN on and off, and locks of such classes.
    Threshold,
    /// Each class and phase alone, values at the edges of a width, two things in one tick.
    Edges,
    /// Handshakes: rises and equal wires in each of their places.
    Handshake,
    /// The ping timer: turns, pings, answers and failures.
    Pings,
    /// The lines: short escalations, pings near them, right and wrong answers.
    Lines,
}

/// Every kind with its name on the command line.
pub const KINDS: [(Kind, &str); 17] = [
    (Kind::Mixed, "mixed"),
    (Kind::Escalate, "escalate"),
    (Kind::Timeout, "timeout"),
    (Kind::Accumulate, "accumulate"),
    (Kind::Locks, "locks"),
    (Kind::Refusals, "refusals"),
    (Kind::Sweep, "sweep"),
    (Kind::Ends, "ends"),
    (Kind::Full, "full"),
    (Kind::Noise, "noise"),
    (Kind::Damaged, "damaged"),
    (Kind::Shadow, "shadow"),
    (Kind::Threshold, "threshold"),
    (Kind::Edges, "edges"),
    (Kind::Handshake, "handshake"),
    (Kind::Pings, "pings"),
    (Kind::Lines, "lines"),
];

impl Kind {
    /// The name on the command line.
    pub fn name(self) -> &'static str {
        KINDS[self as usize].1
    }

    /// The kind with this name.
    pub fn named(name: &str) -> Option<Kind> {
        KINDS
            .iter()
            .find(|entry| entry.1 == name)
            .map(|entry| entry.0)
    }

    /// The kind of the trace at a place of an edition's set: where it has the
    /// ping timer, two of seven are of it, and where it has receive pairs, one
    /// more is of them; there short traces with any end keep their place.
    pub fn of(edition: Edition, place: u64) -> Kind {
        match Kind::at(place) {
            Kind::Full => Kind::Full,
            Kind::Ends if edition.has_receive() => Kind::Ends,
            _ if edition.has_receive() && place % 7 == 6 => Kind::Lines,
            _ if edition.has_timer() && matches!(place % 7, 3 | 5) => Kind::Pings,
            kind => kind,
        }
    }

    /// The kind of the trace at a place of an older set: one in a hundred is long, three have edges, four are of handshakes.
    pub fn at(place: u64) -> Kind {
        const ROUND: [Kind; 10] = [
            Kind::Mixed,
            Kind::Escalate,
            Kind::Timeout,
            Kind::Accumulate,
            Kind::Locks,
            Kind::Refusals,
            Kind::Shadow,
            Kind::Threshold,
            Kind::Sweep,
            Kind::Ends,
        ];
        match place % 100 {
            99 => Kind::Full,
            24 | 49 | 74 => Kind::Edges,
            11 | 36 | 61 | 86 => Kind::Handshake,
            _ => ROUND[(place % 10) as usize],
        }
    }
}
