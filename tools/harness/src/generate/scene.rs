//! A trace under construction: the wires as they stand and the records so far.

use super::entropy::Entropy;
use super::lines::Lines;
use crate::configure::configure;
use crate::opened::opening;
use crate::record::{pack, Head, Side, Tail, NONE, READ, WRITE};
use crate::rng::Rng;
use handler::registers::Map;
use handler::{Edition, LinePairs, Wires, CLASSES};

/// Alerts on both sides of each word of wires, and the last one.
const BORDERS: [usize; 7] = [63, 64, 127, 128, 191, 192, 247];

/// What a generator writes into.
pub struct Scene {
    /// The form of the records.
    pub edition: Edition,
    /// Its register numbers.
    pub map: Map,
    /// The source of all choices.
    pub rng: Rng,
    /// The number of alerts.
    pub n: usize,
    /// The alerts that the trace plays with; the others mostly rest.
    pub active: Vec<usize>,
    /// The class most active alerts belong to.
    pub focus: usize,
    /// An active alert takes new wires once in so many ticks.
    pub calm: u64,
    /// Weight of equal wires against 10 for each of rise and fall.
    pub equal: u64,
    /// False while wires are kept by hand.
    pub moving: bool,
    /// Positive wires.
    pub pos: Side,
    /// Negative wires.
    pub neg: Side,
    /// What the ping timer is handed, where the records have that.
    pub entropy: Option<Entropy>,
    /// What comes back on the lines, where the records have that.
    pub lines: Option<Lines>,
    bytes: Vec<u8>,
}

impl Scene {
    /// A trace for N alerts, all wires at rest.
    pub fn new(edition: Edition, mut rng: Rng, n: u8) -> Scene {
        let count = usize::from(n).clamp(1, edition.alerts());
        let mut active = vec![0, count - 1];
        for _ in 0..rng.below(6) {
            active.push(rng.index(count));
        }
        if edition != Edition::Alerts64 {
            active.push(rng.pick(&BORDERS).min(count - 1));
        }
        let entropy = edition.has_timer().then(|| Entropy::new(rng.bits()));
        let lines = match edition.has_receive() {
            true => Lines::new(rng.bits(), n.into()),
            false => None,
        };
        Scene {
            edition,
            map: edition.registers(),
            n: count,
            active,
            focus: rng.index(CLASSES),
            calm: 6,
            equal: rng.pick(&[0, 0, 1, 4]),
            moving: true,
            pos: Wires::REST.pos,
            neg: Wires::REST.neg,
            entropy,
            lines,
            bytes: opening(edition, n),
            rng,
        }
    }

    /// The bytes; once in eight times with a cut end.
    pub fn finish(mut self) -> Vec<u8> {
        if self.rng.once_in(8) {
            let rest = 1 + self.rng.index(self.edition.bytes() - 1);
            self.tail(rest);
        }
        self.bytes
    }

    /// Adds rest bytes that make no record.
    pub fn tail(&mut self, count: usize) {
        for _ in 0..count {
            self.bytes.push(self.rng.bits() as u8);
        }
    }

    /// A tick without access.
    pub fn none(&mut self) {
        self.access(NONE, 0, 0);
    }

    /// A tick that reads.
    pub fn read(&mut self, register: u16) {
        self.access(READ, register, 0);
    }

    /// A tick that writes.
    pub fn write(&mut self, register: u16, value: u32) {
        self.access(WRITE, register, value);
    }

    /// The ticks that give a register its value.
    pub fn configure(&mut self, register: u16, value: u32) {
        for (register, value) in configure(self.map, register, value) {
            self.write(register, value);
        }
    }

    fn access(&mut self, kind: u8, register: u16, value: u32) {
        self.tick(Head::new(kind, register, value));
    }

    /// A tick with any record head.
    pub fn tick(&mut self, head: Head) {
        self.tick_spoilt(head, 0);
    }

    /// The same with these bits set in the record's last byte, where it is not
    /// a wire's.
    pub fn tick_spoilt(&mut self, head: Head, bits: u8) {
        let wires = self.next_wires();
        let mut tail = self.entropy.as_mut().map_or(Tail::default(), Entropy::tail);
        if self.edition.has_receive() {
            let pairs = self.lines.as_mut().map_or(LinePairs::REST, Lines::receive);
            tail = Tail::wired(tail.word, pairs);
        }
        tail.last |= bits;
        let record = pack(self.edition, head, wires, tail);
        if let Some(lines) = &mut self.lines {
            lines.tick(&record);
        }
        self.bytes.extend(record);
    }

    /// One of the active alerts.
    pub fn any_active(&mut self) -> usize {
        self.rng.pick(&self.active)
    }

    /// The focus class half of the time, else any.
    pub fn any_class(&mut self) -> usize {
        if self.rng.once_in(2) {
            self.focus
        } else {
            self.rng.index(CLASSES)
        }
    }
}
