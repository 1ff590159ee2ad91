//! A list as the writer borrows it: eight slices, each between guards.

use super::row::Row;
use super::spoil::Way;
use crate::record::Side;
use crate::rng::Rng;
use handler::{Wires, WORDS};

/// Entries before and after each slice of a list; they are well formed, so
/// that reading past an end is not refused for what stands there.
pub const GUARD: usize = 4;

/// The numbers that each slice has for an entry.
pub const UNITS: [usize; LISTS] = [1, 1, 1, WORDS, WORDS, 1, 1, 1];

/// The slices of a list.
pub const LISTS: usize = 8;

/// The slices as the writer borrows them.
#[derive(Clone, Copy)]
pub struct Lent<'a> {
    /// Kinds.
    pub kinds: &'a [u8],
    /// Register numbers.
    pub registers: &'a [u16],
    /// Values.
    pub values: &'a [u32],
    /// Positive wires, `WORDS` words for an entry.
    pub positive: &'a [u64],
    /// Negative wires, as many.
    pub negative: &'a [u64],
    /// Entropy words.
    pub entropy: &'a [u32],
    /// Positive wires of the receive pairs.
    pub receive_positive: &'a [u8],
    /// Negative ones.
    pub receive_negative: &'a [u8],
}

impl Lent<'_> {
    /// The lengths of the slices.
    pub fn lengths(&self) -> [usize; LISTS] {
        [
            self.kinds.len(),
            self.registers.len(),
            self.values.len(),
            self.positive.len(),
            self.negative.len(),
            self.entropy.len(),
            self.receive_positive.len(),
            self.receive_negative.len(),
        ]
    }

    /// Whether all slices have the same entries.
    pub fn even(&self) -> bool {
        self.lengths() == UNITS.map(|unit| self.kinds.len() * unit)
    }

    /// The entries, as many as all slices have.
    pub fn rows(&self) -> Vec<Row> {
        let whole = self.lengths().into_iter().zip(UNITS);
        let count = whole.map(|(length, unit)| length / unit).min().unwrap_or(0);
        let row = |at: usize| Row {
            kind: self.kinds[at],
            register: self.registers[at],
            value: self.values[at],
            wires: Wires {
                pos: side(self.positive, at),
                neg: side(self.negative, at),
            },
            word: self.entropy[at],
            receive: (self.receive_positive[at], self.receive_negative[at]),
        };
        (0..count).map(row).collect()
    }
}

/// The wires of an entry.
fn side(words: &[u64], at: usize) -> Side {
    std::array::from_fn(|w| words[at * WORDS + w])
}

/// A list with its guards.
#[derive(Clone, PartialEq, Eq)]
pub struct Entries {
    /// What it has that no record holds.
    pub way: Way,
    /// The alerts of the handler that its records are run on.
    pub n: usize,
    kinds: Vec<u8>,
    registers: Vec<u16>,
    values: Vec<u32>,
    positive: Vec<u64>,
    negative: Vec<u64>,
    entropy: Vec<u32>,
    receive_positive: Vec<u8>,
    receive_negative: Vec<u8>,
    lengths: [usize; LISTS],
}

impl Entries {
    /// These rows between guards.
    pub fn of(way: Way, n: usize, rows: &[Row], rng: &mut Rng) -> Entries {
        let mut all: Vec<Row> = (0..GUARD).map(|_| Row::good(rng)).collect();
        all.extend(rows);
        all.extend((0..GUARD).map(|_| Row::good(rng)));
        Entries {
            way,
            n,
            kinds: all.iter().map(|row| row.kind).collect(),
            registers: all.iter().map(|row| row.register).collect(),
            values: all.iter().map(|row| row.value).collect(),
            positive: all.iter().flat_map(|row| row.wires.pos).collect(),
            negative: all.iter().flat_map(|row| row.wires.neg).collect(),
            entropy: all.iter().map(|row| row.word).collect(),
            receive_positive: all.iter().map(|row| row.receive.0).collect(),
            receive_negative: all.iter().map(|row| row.receive.1).collect(),
            lengths: UNITS.map(|unit| rows.len() * unit),
        }
    }

    /// The same with slices of these lengths; a longer one takes guards in.
    pub(super) fn cut(self, lengths: [usize; LISTS]) -> Entries {
        Entries { lengths, ..self }
    }

    /// The slices without the guards.
    pub fn lent(&self) -> Lent<'_> {
        let [kinds, registers, values, positive, negative, entropy, receives @ ..] = self.lengths;
        let [receive_positive, receive_negative] = receives;
        Lent {
            kinds: &self.kinds[GUARD..][..kinds],
            registers: &self.registers[GUARD..][..registers],
            values: &self.values[GUARD..][..values],
            positive: &self.positive[GUARD * WORDS..][..positive],
            negative: &self.negative[GUARD * WORDS..][..negative],
            entropy: &self.entropy[GUARD..][..entropy],
            receive_positive: &self.receive_positive[GUARD..][..receive_positive],
            receive_negative: &self.receive_negative[GUARD..][..receive_negative],
        }
    }
}

#[cfg(test)]
mod tests {
    use super::*;

    #[test]
    fn rows_come_back_as_they_went_in() {
        let mut rng = Rng::new(7);
        let rows: Vec<Row> = (0..9).map(|_| Row::good(&mut rng)).collect();
        let entries = Entries::of(Way::Good, 1, &rows, &mut rng);
        assert_eq!(entries.lent().rows(), rows);
    }
}
