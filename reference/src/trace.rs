//! Packed traces: records in, words out. Most significant bit first.

use crate::answer::{refusal_number, value, Refusal};
use crate::carried::{carried, without_timer};
use crate::edition::Edition;
use crate::handler::{Access, Handler, Outcome};
use crate::line_pairs::LinePairs;
use crate::wires::{from_bytes, Sample};

/// Takes a record apart into its access and its sample. `record` is the
/// `edition.bytes()` bytes of one record. The access has today's register
/// number, carried over from a record of an older edition. A record without a
/// word gives the word 0 and no answer. A malformed record keeps its sample,
/// since its tick still runs.
pub fn parse(edition: Edition, record: &[u8]) -> (Access, Sample) {
    let mut access = access(edition, number(&record[..4]), number(&record[4..8]));
    let (positive, rest) = record[8..].split_at(edition.wire_bytes());
    let (negative, rest) = rest.split_at(edition.wire_bytes());
    let mut sample = Sample {
        pos: from_bytes(positive),
        neg: from_bytes(negative),
        word: 0,
        receive: None,
        answers: 0,
    };
    if edition.has_word() {
        sample.word = number(&rest[..4]);
    }
    if edition.has_pairs() {
        sample.receive = Some(LinePairs::from_byte(rest[4]));
    } else if edition.has_word() {
        sample.answers = turned(rest[4] & 0xF);
        if rest[4] >> 4 != 0 {
            access = Access::Malformed;
        }
    }
    (access, sample)
}

/// The access in a record's first 32 bits and its value.
fn access(edition: Edition, head: u32, value: u32) -> Access {
    let kind = head >> 30;
    let zeros = head & ((1 << edition.zero_bits()) - 1);
    let number = (head >> edition.zero_bits()) & ((1 << edition.register_bits()) - 1);
    let number = number as u16;
    let register = match edition {
        Edition::First => carried(number),
        Edition::Second => without_timer(number),
        Edition::Third | Edition::Fourth => number,
    };
    if zeros != 0 {
        return Access::Malformed;
    }
    match kind {
        0 if number == 0 && value == 0 => Access::None,
        1 if value == 0 => Access::Read { register },
        2 => Access::Write { register, value },
        _ => Access::Malformed,
    }
}

/// The number in four bytes of a record.
fn number(bytes: &[u8]) -> u32 {
    let mut number = 0;
    for byte in bytes {
        number = (number << 8) | u32::from(*byte);
    }
    number
}

/// Packs what a tick gave: interrupts, lines, refusal number, 20 zeros, value.
pub fn word(outcome: &Outcome) -> u64 {
    (u64::from(turned(outcome.interrupts)) << 60)
        | (u64::from(turned(outcome.lines)) << 56)
        | (refusal_number(outcome.answer) << 52)
        | value(outcome.answer)
}

/// Four bits the other way round, without those above them. In a trace bit 0
/// comes first, so it is the highest of the four, and elsewhere the lowest.
pub(crate) fn turned(bits: u8) -> u8 {
    let mut turned = 0;
    for k in 0..4 {
        turned = (turned << 1) | ((bits >> k) & 1);
    }
    turned
}

/// Runs the records in `bytes` and fills `out` with one word each; later words
/// stay as they were. Answers 0, or -7, -8, -9 with state and list unchanged.
pub fn batch(handler: &mut Handler, edition: Edition, bytes: &[u8], out: &mut [u64]) -> i64 {
    // A record must have wires for every alert, and a word for a timer that is
    // on, so older batches refuse some handlers, though their state is sound.
    let wires = handler.n <= edition.alerts() as u64;
    let words = edition.has_word() || !handler.timer.on();
    if !handler.valid() || !wires || !words {
        return Refusal::BrokenState.answer();
    }
    if bytes.len() % edition.bytes() != 0 {
        return Refusal::BatchLength.answer();
    }
    if out.len() < bytes.len() / edition.bytes() {
        return Refusal::ShortList.answer();
    }
    for (record, slot) in bytes.chunks_exact(edition.bytes()).zip(out.iter_mut()) {
        let (access, sample) = parse(edition, record);
        // Ticks keep a valid state valid, so it is judged once above.
        *slot = word(&handler.run(access, &sample));
    }
    0
}
