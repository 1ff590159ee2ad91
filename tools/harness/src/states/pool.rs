//! States that traces come to.

use crate::calls::{handler_of, reference_edition};
use crate::generate::{trace, Kind};
use crate::opened::opened;
use crate::rng::Rng;
use handler::{Edition, Handler};
use reference::trace::parse;

/// States that are taken from the same trace.
pub const BLOCK: u64 = 64;

/// States of one generated trace.
pub struct Pool {
    /// Which trace.
    pub block: u64,
    /// They are in the order of its ticks.
    pub states: Vec<Handler>,
}

impl Pool {
    /// Runs the block's trace in the reference, and stops at random places.
    pub fn new(block: u64) -> Pool {
        let mut rng = Rng::new(block);
        // The kinds of a round come in every edition.
        let edition = Edition::ALL[(block / 10 % Edition::ALL.len() as u64) as usize];
        let bytes = trace(edition, Kind::of(edition, block), block);
        let input = opened(&bytes);
        let (n, edition) = (input.alerts(), input.edition);
        let records: Vec<&[u8]> = input.records.chunks_exact(edition.bytes()).collect();
        let edition = reference_edition(edition);
        let mut stops: Vec<u64> = (0..BLOCK)
            .map(|_| rng.below(records.len() as u64 + 1))
            .collect();
        stops.sort_unstable();
        let (mut state, _) = reference::Handler::new(n);
        let mut done = 0;
        let mut states = Vec::new();
        for stop in stops {
            for record in &records[done..stop as usize] {
                let (access, sample) = parse(edition, record);
                state.tick(access, &sample);
            }
            done = stop as usize;
            states.push(handler_of(&state));
        }
        Pool { block, states }
    }
}
