//! The time of calm ticks: in one go by the proved engine, and as plain ticks of the same library in one batch.

use super::maker::{Maker, NOTHING};
use super::ROUNDS;
use crate::calls::reference_of;
use handler::{Answer, Change, Edition, Handler, Wires, Word, ALERTS, CHANGES, CLASSES};
use std::fmt;
use std::time::{Duration, Instant};

/// The line above the times.
pub const CALM_TITLE: &str =
    "us of calm ticks, best of 7    ticks  in one go  one by one  one by one/in one go";

/// The numbers of ticks that are timed. Plain ones of the last would take an hour.
pub const CALM_TICKS: [u32; 3] = [1_000, 1_000_000, u32::MAX];
/// The most plain ticks.
const MOST_PLAIN: u32 = 1_000_000;
/// The calls that are timed in a round, and the rounds of a long batch.
const CALLS: usize = 1_000;
const LONG_ROUNDS: usize = 2;

/// A kind of state, and its wires.
pub struct Calm {
    /// Its name.
    pub name: &'static str,
    /// The state.
    pub state: Handler,
    /// The wires.
    pub wires: Wires,
}

/// All alerts and local alerts enabled, the alerts in all four classes; EN, all lines, line p in phase p.
fn set_up() -> Handler {
    let (mut state, _) = Handler::new(ALERTS);
    for i in 0..ALERTS {
        state.alerts.en[i] = 1;
        state.alerts.class[i] = (i % CLASSES) as u8;
    }
    state.locals.en = [1; 7];
    state.interrupts.enable = 15;
    for class in &mut state.classes {
        (class.ctrl, class.thresh) = (0x393D, 65535);
    }
    state
}

/// All classes in this state, with these counts of ticks before them.
fn standing(number: u32, timeout: impl Fn(u32) -> u32, lengths: [u32; 4]) -> Handler {
    let mut state = set_up();
    for (k, class) in (0..).zip(&mut state.classes) {
        (class.state, class.count) = (number, 1);
        (class.timeout, class.lengths) = (timeout(k), lengths);
    }
    state.interrupts.state = 15;
    state
}

/// Every kind of state.
pub fn calms() -> [Calm; 6] {
    let calm = |name, state, wires| Calm { name, state, wires };
    let rest = Wires::REST;
    let mut raised = rest;
    (raised.pos[0], raised.neg[0]) = (1 << 63, u64::MAX >> 1);
    let mut broken = rest;
    broken.pos[3] = 1 << 8;
    let mut prod = set_up();
    for class in &mut prod.classes[..2] {
        (class.thresh, class.lengths) = (0, [0, 10, 10, u32::MAX]);
    }
    let third = u32::MAX / 4;
    [
        calm("at rest", set_up(), rest),
        calm("a start, then long", prod, raised),
        calm("phases", standing(4, |_| 0, [300, 300, 300, third]), rest),
        calm("timeouts", standing(1, |k| 200 + 200 * k, [40; 4]), rest),
        calm("equal wires", set_up(), broken),
        calm("20 changes", standing(1, |k| 1 + third * k, [0; 4]), rest),
    ]
}

/// The best times of calm ticks.
pub struct TimedCalm {
    /// The kind of state.
    pub name: &'static str,
    /// How many ticks.
    pub ticks: u32,
    /// Of one call.
    pub one_go: Duration,
    /// Of that many plain ticks, where they are timed.
    pub plain: Option<Duration>,
    /// Whether state and changes were equal.
    pub equal: bool,
}

/// The records of the calm ticks, with the receive pairs of sound receivers.
fn records(calm: &Calm, ticks: u32) -> Vec<u8> {
    let Wires { pos, neg } = calm.wires;
    let mut maker = Maker::new(Edition::NEWEST, reference_of(&calm.state), ticks as usize);
    for _ in 0..ticks {
        maker.tick(NOTHING, (pos, neg), 0);
    }
    maker.bytes
}

/// The changes that words tell, from lines that are off or as the state has them.
fn changes(words: &[Word], mut lines: u32) -> Vec<Change> {
    let mut all = Vec::new();
    for (tick, word) in (1..).zip(words) {
        let is = (word.0 >> 56 << 28) as u32;
        let is = is.reverse_bits();
        if is != lines {
            all.push(Change::new(is, tick));
        }
        lines = is;
    }
    all
}

/// The best time of a call, what it gives and its changes.
fn one_go(calm: &Calm, ticks: u32) -> (Duration, Handler, Vec<Change>) {
    let mut list = [Change::default(); CHANGES];
    let mut best = Duration::MAX;
    let mut given = calm.state.calm(calm.wires, ticks, &mut list);
    for _ in 0..ROUNDS {
        let begin = Instant::now();
        for _ in 0..CALLS {
            given = calm.state.calm(calm.wires, ticks, &mut list);
        }
        best = best.min(begin.elapsed() / CALLS as u32);
    }
    let count = given.answer.0.max(0) as usize;
    (best, given.handler, list[..count].to_vec())
}

/// The best time of a batch of that many calm ticks, the state after it and the changes that its words tell.
fn plain(calm: &Calm, ticks: u32) -> (Duration, Handler, Vec<Change>) {
    let bytes = records(calm, ticks);
    let mut words = vec![Word(0); ticks as usize];
    let mut best = Duration::MAX;
    let mut after = calm.state;
    let rounds = if ticks < MOST_PLAIN {
        ROUNDS
    } else {
        LONG_ROUNDS
    };
    for _ in 0..rounds {
        let begin = Instant::now();
        let (state, answer) = calm.state.batch(Edition::NEWEST, &bytes, &mut words);
        best = best.min(begin.elapsed());
        assert_eq!(answer, Answer(0));
        after = state;
    }
    let mut list = [Change::default(); CHANGES];
    let before = calm.state.calm(calm.wires, 0, &mut list).output.lines;
    (best, after, changes(&words, before))
}

/// Times so many calm ticks of a kind of state, in one go and, where they are not too many, one by one.
pub fn time_calm(calm: &Calm, ticks: u32) -> TimedCalm {
    let (one_go, state, listed) = one_go(calm, ticks);
    let plain = (ticks <= MOST_PLAIN).then(|| plain(calm, ticks));
    let same = |run: &(Duration, Handler, Vec<Change>)| run.1 == state && run.2 == listed;
    TimedCalm {
        name: calm.name,
        ticks,
        one_go,
        equal: plain.as_ref().map_or(true, same),
        plain: plain.map(|run| run.0),
    }
}

impl fmt::Display for TimedCalm {
    fn fmt(&self, out: &mut fmt::Formatter) -> fmt::Result {
        let micros = |time: Duration| time.as_nanos() as f64 / 1000.0;
        let (name, ticks, one) = (self.name, self.ticks, micros(self.one_go));
        write!(out, "{name:<25} {ticks:>10} {one:>10.2}")?;
        match self.plain.map(micros) {
            Some(plain) => write!(out, " {plain:>11.1} {:>21.0}", plain / one)?,
            None => write!(out, " {:>11} {:>21}", "-", "-")?,
        }
        if !self.equal {
            write!(out, "  DIFFERENT")?;
        }
        Ok(())
    }
}
