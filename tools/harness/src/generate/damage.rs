//! Bytes that nobody meant as a trace.

use super::far;
use crate::rng::Rng;
use handler::Edition;

/// Random bytes behind the edition's mark.
pub fn noise(edition: Edition, rng: Rng) -> Vec<u8> {
    let bytes = edition.mark().into_iter();
    bytes.chain(random(edition, rng)).collect()
}

/// Random bytes of a random length. Half have an accepted N, and half of those
/// have the bits behind the register at zero, since else every record is
/// malformed.
fn random(edition: Edition, mut rng: Rng) -> Vec<u8> {
    let most = rng.pick(&[4, 100, 2000, 10000]);
    let length = rng.below(most);
    let mut bytes: Vec<u8> = (0..length).map(|_| rng.bits() as u8).collect();
    if bytes.is_empty() || rng.once_in(2) {
        return bytes;
    }
    bytes[0] = 1 + rng.below(edition.alerts() as u64) as u8;
    if rng.once_in(2) {
        for record in bytes[1..].chunks_mut(edition.bytes()) {
            tidy(edition, &mut rng, record);
        }
    }
    bytes
}

/// Makes most records well formed and aims them at assigned registers.
fn tidy(edition: Edition, rng: &mut Rng, record: &mut [u8]) {
    if record.len() < 8 || rng.once_in(8) {
        return;
    }
    let kind = 1 + rng.below(2);
    let head = kind << edition.register_bits() | rng.below(far(edition.registers()).into());
    let head = (head as u32) << edition.zero_bits();
    record[..4].copy_from_slice(&head.to_be_bytes());
    if kind == 1 {
        record[4..8].fill(0);
    } else {
        record[4..8].copy_from_slice(&(rng.below(4) as u32).to_be_bytes());
    }
}

/// A trace with flipped bits, and now and then a byte lost or added.
pub fn damaged(mut rng: Rng, mut bytes: Vec<u8>) -> Vec<u8> {
    for _ in 0..rng.pick(&[1, 3, 30, 300]) {
        let limit = bytes.len() as u64;
        if limit == 0 {
            return bytes;
        }
        let at = rng.below(limit) as usize;
        match rng.below(200) {
            0 => {
                bytes.remove(at);
            }
            1 => bytes.insert(at, rng.bits() as u8),
            _ => bytes[at] ^= 1 << rng.below(8),
        }
    }
    if rng.once_in(4) {
        let length = rng.below(bytes.len() as u64 + 1) as usize;
        bytes.truncate(length);
    }
    bytes
}
