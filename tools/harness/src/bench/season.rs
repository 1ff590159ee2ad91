//! A season as a trace: a boot, then long calm with pings, and now and then an alert.

use super::maker::{Maker, NOTHING};
use super::senders::Senders;
use super::QUIET;
use crate::configure::configure;
use crate::opened::opening;
use crate::record::{Head, READ, WRITE};
use crate::rng::Rng;
use handler::registers::{Field, Setting, INTR_ENABLE, INTR_STATE, MAP};
use handler::registers::{PING_ENABLE, PING_REGWEN, PING_TIMEOUT};
use handler::{Edition, Lifecycle, ALERTS};
use reference::{installer, Access, Handler};

/// Ticks from an alert to the next, and from an alert to the software that
/// serves it.
const ALERT: usize = 10_000;
const SERVED: usize = 100;
/// An alert and what serves it fit into a wait of so many ticks.
const ROOM: u16 = 1_000;
/// The turns after which the same line has its turn again.
const TURNS: u8 = 8;

/// The records of a handler of 248 alerts, new before the first.
///
/// The start is a boot for PROD as the installer does it; then software enables
/// the interrupts, local 0 to 3, and classes C and D with a threshold of 15, locks
/// all alerts of the boot, so that each can be pinged, and switches the ping timer
/// on. A round follows, for ever: eight turns of the timer, set by random words, so
/// of 32,768 ticks in the mean; every 10,000 ticks an alert of class C or D, by the
/// whole handshake, whose cause, count and interrupt software clears 100 ticks
/// later; and calm. The word that ends a round sets the turn with which it began,
/// so that the senders and receivers which were sound in the first round are so in
/// each.
pub struct Season {
    start: Vec<u8>,
    round: Vec<u8>,
}

/// The accesses of the start, one a tick.
fn booted() -> Vec<Head> {
    let accesses = installer::accesses(Lifecycle::Prod.number());
    let head = |access| match access {
        Access::Read { register } => Head::new(READ, register, 0),
        Access::Write { register, value } => Head::new(WRITE, register, value),
        Access::None | Access::Malformed => NOTHING,
    };
    let mut heads: Vec<Head> = accesses.into_iter().map(head).collect();
    let mut writes = vec![(INTR_ENABLE, 15)];
    writes.extend((0..4).map(|j| (MAP.local(Field::En, j), 1)));
    for k in [2, 3] {
        writes.push((MAP.class(k, Setting::AccumThresh), 15));
        writes.push((MAP.class(k, Setting::Ctrl), 0x393D));
    }
    writes.extend((0..installer::ALERTS).map(|i| (MAP.alert(Field::Regwen, i), 0)));
    writes.extend([(PING_TIMEOUT, 256), (PING_ENABLE, 1), (PING_REGWEN, 0)]);
    let writes = writes.into_iter();
    let written = writes.flat_map(|(register, value)| configure(MAP, register, value));
    heads.extend(written.map(|(register, value)| Head::new(WRITE, register, value)));
    heads
}

/// What serves the interrupt of alert i, which is of class k.
fn served(i: usize, k: usize) -> [Head; 5] {
    [
        Head::new(READ, INTR_STATE, 0),
        Head::new(READ, MAP.alert(Field::Cause, i), 0),
        Head::new(WRITE, MAP.alert(Field::Cause, i), 1),
        Head::new(WRITE, MAP.class(k, Setting::Clr), 1),
        Head::new(WRITE, INTR_STATE, 1 << k),
    ]
}

/// The enabled alerts of class C or D: one event of theirs starts nothing.
fn mild(state: &Handler) -> Vec<usize> {
    let is_mild = |i: &usize| state.alerts[*i].en == 1 && state.alerts[*i].class >= 2;
    (0..ALERTS).filter(is_mild).collect()
}

/// A round under way.
struct Round {
    maker: Maker,
    rng: Rng,
    senders: Senders,
    /// The tick before which no alert is sent.
    due: usize,
    /// What software does, and from which tick on.
    service: (usize, Vec<Head>),
}

impl Round {
    fn new(state: Handler) -> Round {
        Round {
            maker: Maker::new(Edition::NEWEST, state, 0),
            rng: Rng::new(5),
            senders: Senders::new(),
            due: ALERT / 2,
            service: (0, Vec::new()),
        }
    }

    /// Sends an alert where one is due and the timer's wait leaves room for it.
    fn alert(&mut self, mild: &[usize]) {
        let (at, state) = (self.maker.records(), &self.maker.state);
        if at < self.due || state.timer.count < ROOM {
            return;
        }
        let i = self.rng.pick(mild);
        let class = usize::from(state.alerts[i].class);
        self.senders.raise(i);
        self.due += ALERT;
        self.service = (at + SERVED, served(i, class).to_vec());
        self.service.1.reverse();
    }

    /// A tick with this word.
    fn tick(&mut self, word: u32) {
        let is_due = self.maker.records() >= self.service.0;
        let access = if is_due { self.service.1.pop() } else { None };
        let wires = self.senders.wires(&self.maker.state);
        self.maker.tick(access.unwrap_or(NOTHING), wires, word);
    }

    /// The records of eight turns, at most so many.
    fn turns(mut self, most: usize) -> Vec<u8> {
        let (first, mild) = (self.maker.state.timer, mild(&self.maker.state));
        let again = u32::from(first.alert) << 16 | u32::from(first.count);
        while self.maker.records() < most {
            let last = self.maker.state.timer.number % TURNS == TURNS - 1;
            self.alert(&mild);
            // One of the first 64 alerts, so that most turns have a ping.
            let any = self.rng.bits() as u32 & 0xFF3F_FFFF;
            self.tick(if last { again } else { any });
            if last && self.maker.state.timer.number % TURNS == 0 {
                break;
            }
        }
        self.maker.bytes
    }
}

impl Season {
    /// What is needed of a season of so many records.
    pub fn new(records: usize) -> Season {
        let (new, _) = Handler::new(ALERTS as u64);
        let heads = booted();
        let most = records.saturating_sub(heads.len());
        let mut maker = Maker::new(Edition::NEWEST, new, heads.len());
        let mut rng = Rng::new(6);
        for head in heads {
            maker.tick(head, QUIET, rng.bits() as u32);
        }
        Season {
            start: maker.bytes,
            round: Round::new(maker.state).turns(most),
        }
    }

    /// What stands before the records of its trace.
    pub fn opening() -> Vec<u8> {
        opening(Edition::NEWEST, ALERTS as u8)
    }

    /// The records of the start, and of a round.
    pub fn parts(&self) -> [usize; 2] {
        [&self.start, &self.round].map(|part| part.len() / Edition::NEWEST.bytes())
    }

    /// The bytes of so many records, in pieces.
    pub fn pieces(&self, records: usize) -> impl Iterator<Item = &[u8]> {
        let mut left = records * Edition::NEWEST.bytes();
        let rounds = std::iter::repeat(&self.round);
        let parts = std::iter::once(&self.start).chain(rounds);
        parts.map_while(move |part| {
            let piece = &part[..part.len().min(left)];
            left -= piece.len();
            Some(piece).filter(|piece| !piece.is_empty())
        })
    }

    /// The bytes of so many records.
    pub fn bytes(&self, records: usize) -> Vec<u8> {
        let pieces: Vec<_> = self.pieces(records).collect();
        pieces.concat()
    }
}
