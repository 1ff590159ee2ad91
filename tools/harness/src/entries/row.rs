//! One entry of a list.

use crate::calls::{receive, register, wires, word};
use crate::generate::WRITTEN;
use crate::record::largest;
use crate::rng::Rng;
use handler::registers::MAP;
use handler::{Access, Edition, LinePairs, Sample, Wires};
use std::array::from_fn;

/// The largest register that the writer takes.
const LARGEST: u16 = largest(Edition::NEWEST);

/// One access with its sample.
#[derive(Clone, Copy, Debug, PartialEq, Eq)]
pub struct Row {
    /// 0 none, 1 read, 2 write.
    pub kind: u8,
    /// The register number.
    pub register: u16,
    /// The written value.
    pub value: u32,
    /// The wires.
    pub wires: Wires,
    /// The entropy word.
    pub word: u32,
    /// The receive pairs, line 0 at the lowest bit; bits 4 to 7 count for
    /// nothing.
    pub receive: (u8, u8),
}

impl Row {
    /// An access that a record holds.
    pub(super) fn good(rng: &mut Rng) -> Row {
        let near = register(MAP, rng) & LARGEST;
        let far = rng.bits() as u16 & LARGEST;
        let any = rng.bits() as u32;
        let random = Wires {
            pos: from_fn(|_| rng.bits()),
            neg: from_fn(|_| rng.bits()),
        };
        let mut row = Row {
            kind: rng.pick(&[0, 1, 1, 2, 2]),
            register: rng.pick(&[near, near, near, far, 0, LARGEST]),
            value: rng.pick(&[0, 1, u32::MAX, any]),
            wires: wires(rng),
            word: word(rng),
            receive: (0, 0),
        };
        let pairs = receive(LinePairs::REST, rng);
        row.receive = (pairs.pos as u8, pairs.neg as u8);
        if rng.once_in(2) {
            row.wires = random;
            row.word = any.rotate_left(7);
        }
        if rng.once_in(2) {
            row.value = rng.pick(&WRITTEN);
        }
        match row.kind {
            0 => (row.register, row.value) = (0, 0),
            1 => row.value = 0,
            _ => {}
        }
        row
    }

    /// The receive pairs as a sample has them.
    pub fn pairs(&self) -> LinePairs {
        let (pos, neg) = self.receive;
        LinePairs {
            pos: pos.into(),
            neg: neg.into(),
        }
    }

    /// The sample as a tick takes it.
    pub fn sample(&self) -> Sample {
        Sample {
            alerts: self.wires,
            word: self.word,
            receive: self.pairs(),
        }
    }

    /// The access as a tick takes it; a kind over 2 is a malformed one.
    pub fn access(&self) -> Access {
        match self.kind {
            0 => Access::Nothing,
            1 => Access::Read(self.register),
            2 => Access::Write(self.register, self.value),
            _ => Access::Malformed,
        }
    }
}
