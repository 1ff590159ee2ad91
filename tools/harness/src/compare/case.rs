//! The traces of a set.

use crate::generate::{trace, Kind};
use crate::opened::opened;
use handler::Edition;

/// A trace by name, whole or only its first records.
#[derive(Clone, Copy)]
pub struct Case {
    /// The form of its records.
    pub edition: Edition,
    /// What it is about.
    pub kind: Kind,
    /// The seed.
    pub seed: u64,
    /// How many records to keep, all of the bytes if none is said.
    pub records: Option<usize>,
}

impl Case {
    /// The bytes.
    pub fn bytes(&self) -> Vec<u8> {
        let mut bytes = trace(self.edition, self.kind, self.seed);
        if let Some(records) = self.records {
            // Damage may have made it a trace of another edition.
            let input = opened(&bytes);
            let before = bytes.len() - input.records.len();
            bytes.truncate(before + records * input.edition.bytes());
        }
        bytes
    }
}

/// The traces in the default set.
pub const DEFAULT_TRACES: u64 = 400;
/// The first seed of the default set.
pub const DEFAULT_SEED: u64 = 1;

/// The cases of a set: the seeds go up by one, the kinds take turns.
pub fn generated(edition: Edition, seed: u64) -> impl Iterator<Item = Case> {
    (0..).map(move |place| Case {
        edition,
        kind: Kind::of(edition, place),
        seed: seed.wrapping_add(place),
        records: None,
    })
}

/// The cases of several sets, one of each in turn.
pub fn in_turn(editions: Vec<Edition>, seed: u64) -> impl Iterator<Item = Case> {
    let mut sets: Vec<_> = editions.into_iter().map(|it| generated(it, seed)).collect();
    (0..).flat_map(move |_: u64| {
        let next = sets.iter_mut().filter_map(Iterator::next);
        next.collect::<Vec<Case>>()
    })
}

/// The cases of damaged input.
pub fn damage(edition: Edition, seed: u64) -> impl Iterator<Item = Case> {
    (0..).map(move |place: u64| Case {
        edition,
        kind: [Kind::Noise, Kind::Damaged][(place % 2) as usize],
        seed: seed.wrapping_add(place),
        records: None,
    })
}
