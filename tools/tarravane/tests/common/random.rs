//! What traces hold, at random.
use super::records::{off_rest, record, start};
use handler::{Edition, Wires};
use harness::rng::Rng;

pub fn bytes(rng: &mut Rng, length: usize) -> Vec<u8> {
    (0..length).map(|_| rng.bits() as u8).collect()
}

/// Wires: at rest, a few alerts off rest, a range of them, or any.
fn wires(rng: &mut Rng, edition: Edition) -> Wires {
    let most = edition.alerts();
    let one = |rng: &mut Rng| (rng.index(most), rng.below(4) as u8);
    match rng.below(4) {
        0 => Wires::REST,
        1 => off_rest(&[(rng.index(most), rng.pick(&[0b00, 0b10, 0b11]))]),
        2 => {
            let (first, levels) = one(rng);
            let last = first + rng.index(most - first);
            let run: Vec<(usize, u8)> = (first..=last).map(|i| (i, levels)).collect();
            off_rest(&run)
        }
        _ => {
            let any: Vec<(usize, u8)> = (0..most).map(|i| (i, rng.below(4) as u8)).collect();
            off_rest(&any)
        }
    }
}

/// A well-formed record.
fn any_record(rng: &mut Rng, edition: Edition) -> Vec<u8> {
    let register = rng.below(1 << edition.register_bits());
    let wires = wires(rng, edition);
    let value = rng.below(1 << 32) >> rng.below(33);
    let mut record = match rng.below(3) {
        0 => record(edition, 0, 0, 0, wires),
        1 => record(edition, 1, register, 0, wires),
        _ => record(edition, 2, register, value, wires),
    };
    if edition.has_timer() && !rng.once_in(3) {
        let wait = rng.bits() as u32 >> rng.below(32);
        record[70..74].copy_from_slice(&wait.to_be_bytes());
        record[74] = rng.below(16) as u8;
    }
    record
}

/// A well-formed trace.
pub fn trace(rng: &mut Rng, edition: Edition) -> Vec<u8> {
    let mut bytes = start(edition, 1 + rng.index(edition.alerts()) as u8);
    for _ in 0..rng.below(400) {
        bytes.extend(any_record(rng, edition));
    }
    bytes
}
