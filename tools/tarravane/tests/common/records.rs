//! The bytes of traces, packed by the harness.
use handler::{Edition, LinePairs, Wires};
use harness::record::{pack, Head, Tail};

/// All wires of a record of 24 bytes at (0,1).
pub const REST: (u64, u64) = (0, u64::MAX);

/// The bytes before the first record.
pub fn start(edition: Edition, n: u8) -> Vec<u8> {
    edition.mark().into_iter().chain([n]).collect()
}

/// A record's bytes, the lines' receive pairs at rest; the register has the edition's number.
pub fn record(edition: Edition, kind: u64, register: u64, value: u64, wires: Wires) -> Vec<u8> {
    let wires = (wires.pos, wires.neg);
    let mut record = harness::record::record(edition, kind, register, value, wires);
    if edition.has_receive() {
        record[edition.bytes() - 1] = LinePairs::REST.byte();
    }
    record
}

/// The records of the writes that give a register its value, all wires at rest.
pub fn configure(edition: Edition, register: u16, value: u32) -> Vec<u8> {
    let writes = harness::configure::configure(edition.registers(), register, value).into_iter();
    let record = |(register, value): (u16, u32)| {
        record(edition, 2, register.into(), value.into(), Wires::REST)
    };
    writes.flat_map(record).collect()
}

/// A record of 24 bytes, its wires as two words.
pub fn record_64(kind: u64, register: u64, value: u64, (pos, neg): (u64, u64)) -> Vec<u8> {
    let mut wires = Wires::REST;
    (wires.pos[0], wires.neg[0]) = (pos, neg);
    record(Edition::Alerts64, kind, register, value, wires)
}

/// A record of 70 bytes.
pub fn record_248(kind: u64, register: u64, value: u64, wires: Wires) -> Vec<u8> {
    record(Edition::Alerts248, kind, register, value, wires)
}

/// A record of 75 bytes that has an entropy word and answers, line 0 lowest.
pub fn record_pings(
    kind: u8,
    register: u16,
    value: u32,
    wires: Wires,
    pings: (u32, u32),
) -> Vec<u8> {
    let (head, tail) = (
        Head::new(kind, register, value),
        Tail::new(pings.0, pings.1),
    );
    pack(Edition::Pings, head, (wires.pos, wires.neg), tail)
}

/// A record of 75 bytes that has an entropy word and receive pairs.
pub fn record_wires(
    kind: u8,
    register: u16,
    value: u32,
    wires: Wires,
    (word, receive): (u32, LinePairs),
) -> Vec<u8> {
    let (head, tail) = (Head::new(kind, register, value), Tail::wired(word, receive));
    pack(Edition::Wires, head, (wires.pos, wires.neg), tail)
}

/// Wires at rest but for these alerts; 0b10 has the positive wire at 1, the negative at 0.
pub fn off_rest(pairs: &[(usize, u8)]) -> Wires {
    let mut wires = Wires::REST;
    for (alert, levels) in pairs {
        let (word, bit) = (alert / 64, 63 - alert % 64);
        wires.pos[word] |= u64::from(levels >> 1) << bit;
        wires.neg[word] &= !(u64::from(!levels & 1) << bit);
    }
    wires
}

fn every(step: usize, edition: Edition, levels: u8) -> Wires {
    let alerts = (0..edition.alerts()).step_by(step);
    off_rest(&alerts.map(|i| (i, levels)).collect::<Vec<_>>())
}

/// All alerts of the edition at these levels.
pub fn all_at(edition: Edition, levels: u8) -> Wires {
    every(1, edition, levels)
}

/// Every second alert at these levels, from alert 0 on.
pub fn apart(edition: Edition, levels: u8) -> Wires {
    every(2, edition, levels)
}
