//! Bytes that are made of a dump, each through both readers.

use super::beside::{again_odd, read_odd, Verdict};
use super::part::{head, part, ALERTS, STAGE};
use super::subject::Subject;
use super::summary::Summary;
use super::twist::TWISTS;
use crate::calls::Odd;
use crate::rng::Rng;

/// What was read, and what differs.
pub type Seen = Option<(String, Odd)>;

/// Of bytes that are taken, one in so many is written again.
const AGAIN: u64 = 4;

/// Bytes through both readers; those that are a dump at times written again.
fn seen(subject: &Subject, bytes: &[u8], what: &str, rng: &mut Rng) -> (Verdict, Seen) {
    let (verdict, mut odd) = read_odd(subject, bytes);
    if odd.is_none() && verdict == Verdict::Whole && rng.once_in(AGAIN) {
        odd = again_odd(subject, bytes);
    }
    (verdict, odd.map(|odd| (what.to_string(), odd)))
}

/// A dump cut to so many bytes.
fn cut(subject: &Subject, dump: &[u8], length: usize, rng: &mut Rng, met: &mut Summary) -> Seen {
    let what = format!("the first {length} of {} bytes", dump.len());
    let (verdict, odd) = seen(subject, &dump[..length], &what, rng);
    met.cuts[part(dump, 8 * length) as usize] += 1;
    met.verdicts[verdict as usize] += 1;
    met.empty += u64::from(length == 0);
    odd
}

/// A dump with one bit flipped.
fn flip(subject: &Subject, dump: &[u8], bit: usize, rng: &mut Rng, met: &mut Summary) -> Seen {
    let mut bytes = dump.to_vec();
    bytes[bit / 8] ^= 0x80 >> (bit % 8);
    let (verdict, odd) = seen(subject, &bytes, &format!("bit {bit} flipped"), rng);
    met.flips[part(dump, bit) as usize][verdict as usize] += 1;
    met.verdicts[verdict as usize] += 1;
    odd
}

/// A dump and bytes behind it: zeros, others, a whole stage.
fn appended(subject: &Subject, dump: &[u8], rng: &mut Rng, met: &mut Summary) -> Seen {
    let (many, any) = (1 + rng.index(40), rng.bits() as u8);
    let more = rng.pick(&[1, 1, 2, STAGE, many]);
    let byte = rng.pick(&[0, 0, 255, any]);
    let bytes = [dump, &vec![byte; more]].concat();
    let (verdict, odd) = seen(subject, &bytes, &format!("{more} bytes behind it"), rng);
    met.appended += 1;
    met.verdicts[verdict as usize] += 1;
    odd
}

/// A dump with one of the changes that a reader may take for right.
fn twisted(subject: &Subject, dump: &[u8], rng: &mut Rng, met: &mut Summary) -> Seen {
    let at = rng.index(TWISTS.len());
    let (name, twist) = TWISTS[at];
    let mut bytes = dump.to_vec();
    if !twist(&mut bytes, rng) {
        return None;
    }
    let (verdict, odd) = seen(subject, &bytes, name, rng);
    met.twists[at][verdict as usize] += 1;
    met.verdicts[verdict as usize] += 1;
    odd
}

/// Random bytes, half of them behind TDMP.
fn random(subject: &Subject, rng: &mut Rng, met: &mut Summary) -> Seen {
    let mut bytes = match rng.once_in(2) {
        true => b"TDMP".to_vec(),
        false => Vec::new(),
    };
    let more = rng.index(60);
    bytes.extend((0..more).map(|_| rng.bits() as u8));
    let (verdict, odd) = seen(subject, &bytes, "random bytes", rng);
    met.random += 1;
    met.verdicts[verdict as usize] += 1;
    odd
}

/// A few of each.
pub fn some(subject: &Subject, dump: &[u8], rng: &mut Rng, met: &mut Summary) -> Seen {
    let length = rng.index(dump.len());
    let bit = rng.index(8 * dump.len());
    cut(subject, dump, length, rng, met)
        .or_else(|| flip(subject, dump, bit, rng, met))
        .or_else(|| appended(subject, dump, rng, met))
        .or_else(|| twisted(subject, dump, rng, met))
        .or_else(|| twisted(subject, dump, rng, met))
        .or_else(|| random(subject, rng, met))
}

/// Whether every bit of this byte is flipped: all before the stages, and those
/// of one stage in `every`.
fn is_flipped(dump: &[u8], byte: usize, every: usize) -> bool {
    let from = head(dump[ALERTS].into()) + 2;
    byte < from || (byte - from) / STAGE % every == 0
}

/// Every cut and every flipped bit; of a list of many stages the bits of some.
pub fn all(subject: &Subject, dump: &[u8], rng: &mut Rng, met: &mut Summary) -> Seen {
    met.thorough += 1;
    let every = 1 + dump.len() / 300;
    for length in 0..dump.len() {
        let odd = cut(subject, dump, length, rng, met);
        if odd.is_some() {
            return odd;
        }
    }
    for bit in (0..8 * dump.len()).filter(|bit| is_flipped(dump, bit / 8, every)) {
        let odd = flip(subject, dump, bit, rng, met);
        if odd.is_some() {
            return odd;
        }
    }
    None
}
