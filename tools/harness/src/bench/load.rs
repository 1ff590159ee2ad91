//! The records that are timed.

use super::accesses::{reads, writes};
use super::maker::{Maker, NOTHING};
use super::season::Season;
use super::senders::Senders;
use super::start::start;
use super::QUIET;
use crate::record::Head;
use crate::rng::Rng;
use handler::{Edition, CLASSES};
use reference::Handler;

/// What the records of a batch do. The receive pairs are always those of sound
/// receivers.
#[derive(Clone, Copy, Debug, PartialEq, Eq)]
pub enum Load {
    /// No access, all wires at rest, the ping timer off.
    Quiet,
    /// An alert is sent in every 64th tick, by the whole handshake of a sound
    /// sender.
    Sparse,
    /// Random wires, many of them equal.
    Random,
    /// A read in each tick, all wires at rest: see [`reads`].
    Read,
    /// A write in each tick, all wires at rest: see [`writes`].
    Write,
    /// The ping timer is on, and the words set turns of at most 256 ticks; sound
    /// senders and receivers answer.
    Pings,
    /// Four alerts start all four classes in the first tick, and all four lines
    /// are on from then on.
    Escalation,
    /// See [`Season`].
    Season,
}

/// Every load with its name.
pub const LOADS: [(Load, &str); 8] = [
    (Load::Quiet, "quiet wires"),
    (Load::Sparse, "sparse events"),
    (Load::Random, "random wires"),
    (Load::Read, "a read each tick"),
    (Load::Write, "a write each tick"),
    (Load::Pings, "pings answered"),
    (Load::Escalation, "escalation"),
    (Load::Season, "season"),
];

/// Ticks from an alert of the sparse load to the next.
const SPARSE: usize = 64;

impl Load {
    /// The load of this name.
    pub fn named(name: &str) -> Option<Load> {
        let found = LOADS.into_iter().find(|it| it.1 == name);
        found.map(|it| it.0)
    }

    /// Whether an edition's records hold it.
    pub fn is_of(self, edition: Edition) -> bool {
        match self {
            Load::Pings | Load::Escalation | Load::Season => edition == Edition::NEWEST,
            _ => true,
        }
    }
}

/// What a batch is given.
pub struct Made {
    /// The state that it starts from.
    pub first: Handler,
    /// The records.
    pub bytes: Vec<u8>,
}

/// So many records of a load, for as many alerts as the edition has.
pub fn load(edition: Edition, load: Load, records: usize) -> Made {
    let first = start(edition, load, records);
    let mut maker = Maker::new(edition, first.clone(), records);
    match load {
        Load::Season => {
            let bytes = Season::new(records).bytes(records);
            return Made { first, bytes };
        }
        Load::Quiet => quiet(&mut maker, records),
        Load::Random => random(&mut maker, records),
        Load::Read => accesses(&mut maker, reads(edition.registers()).take(records)),
        Load::Write => accesses(&mut maker, writes(edition.registers()).take(records)),
        Load::Sparse => sparse(&mut maker, records),
        Load::Pings => pings(&mut maker, records),
        Load::Escalation => escalation(&mut maker, records),
    }
    let bytes = maker.bytes;
    Made { first, bytes }
}

fn quiet(maker: &mut Maker, records: usize) {
    for _ in 0..records {
        maker.tick(NOTHING, QUIET, 0);
    }
}

fn accesses(maker: &mut Maker, heads: impl Iterator<Item = Head>) {
    for head in heads {
        maker.tick(head, QUIET, 0);
    }
}

fn random(maker: &mut Maker, records: usize) {
    let mut rng = Rng::new(1);
    for _ in 0..records {
        let mut wires = QUIET;
        for (pos, neg) in wires.0.iter_mut().zip(&mut wires.1) {
            (*pos, *neg) = (rng.bits(), rng.bits());
        }
        maker.tick(NOTHING, wires, 0);
    }
}

/// From the last alert down.
fn sparse(maker: &mut Maker, records: usize) {
    let (alerts, mut senders) = (maker.state.n as usize, Senders::new());
    for at in 0..records {
        if at % SPARSE == 0 {
            senders.raise(alerts - 1 - at / SPARSE % alerts);
        }
        let wires = senders.wires(&maker.state);
        maker.tick(NOTHING, wires, 0);
    }
}

fn pings(maker: &mut Maker, records: usize) {
    let (mut rng, mut senders) = (Rng::new(4), Senders::new());
    for _ in 0..records {
        let wires = senders.wires(&maker.state);
        // Of the low half, which sets the wait, eight bits.
        maker.tick(NOTHING, wires, rng.bits() as u32 & 0xFFFF_00FF);
    }
}

fn escalation(maker: &mut Maker, records: usize) {
    let mut senders = Senders::new();
    // Alert k is of class k.
    (0..CLASSES).for_each(|k| senders.raise(k));
    for _ in 0..records {
        let wires = senders.wires(&maker.state);
        maker.tick(NOTHING, wires, 0);
    }
}
