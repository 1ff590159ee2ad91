//! What was written is read back.

use super::subject::Subject;
use super::summary::Summary;
use crate::calls::{reference_access, reference_sample, Odd};
use crate::entries::{Entries, Row};
use crate::record::{wires_of, WRITTEN_BYTES};
use handler::{Edition, Handler, Ticked, Word};
use reference::trace::{parse, word};
use reference::writer::WRITTEN;

/// The names of the calls, as a difference shows them.
const READING: &str = "reading";
const PROVED_BATCH: &str = "batch of the written";
const REFERENCE_BATCH: &str = "reference's batch";

/// The written records give the list's accesses and samples, and as a batch
/// from a new handler the words and the state that its ticks give one by one.
pub fn read_back(
    subject: &Subject,
    entries: &Entries,
    bytes: &[u8],
    summary: &mut Summary,
) -> Option<Odd> {
    let rows = entries.lent().rows();
    parse_odd(&rows, bytes)
        .or_else(|| proved_odd(subject, entries.n, &rows, bytes))
        .or_else(|| reference_odd(entries.n, &rows, bytes, summary))
}

/// The first record that the reference does not read as its entry.
fn parse_odd(rows: &[Row], bytes: &[u8]) -> Option<Odd> {
    let length = rows.len() * WRITTEN_BYTES;
    if bytes.len() != length {
        return Some(Odd::new(READING, "bytes", length, bytes.len()));
    }
    let records = bytes.chunks_exact(WRITTEN_BYTES);
    for (at, (row, record)) in rows.iter().zip(records).enumerate() {
        // What no record holds of it is left out.
        let sample = reference::Sample {
            pos: wires_of(row.wires.pos),
            neg: wires_of(row.wires.neg),
            word: row.word,
            receive: Some(reference::LinePairs {
                pos: row.receive.0 & 15,
                neg: row.receive.1 & 15,
            }),
            answers: 0,
        };
        let wanted = (reference_access(row.access()), sample);
        let got = parse(WRITTEN, record);
        if wanted != got {
            let field = format!("record {at}");
            let (wanted, got) = (format!("{wanted:x?}"), format!("{got:x?}"));
            return Some(Odd::new(READING, field, wanted, got));
        }
    }
    None
}

/// The subject's batch of the records and its ticks of the list.
fn proved_odd(subject: &Subject, n: usize, rows: &[Row], bytes: &[u8]) -> Option<Odd> {
    let (mut state, _) = Handler::new(n);
    let mut words = vec![Word(0); rows.len()];
    let (after, answer) = (subject.batch)(state, Edition::NEWEST, bytes, &mut words);
    if answer.0 != 0 {
        return Some(Odd::new(PROVED_BATCH, "answer", 0, answer.0));
    }
    for (at, (row, got)) in rows.iter().zip(&words).enumerate() {
        let given = (subject.tick)(state, row.access(), row.sample());
        state = given.handler;
        let wanted = ticked_word(&given);
        if wanted != got.0 {
            return Some(Odd::word(PROVED_BATCH, at, wanted, got.0));
        }
    }
    state_odd(PROVED_BATCH, state == after)
}

/// The word of a tick of the subject.
fn ticked_word(given: &Ticked) -> u64 {
    let four = |bits: u32| u8::try_from(bits).expect("four bits");
    word(&reference::Outcome {
        answer: given.answer.0,
        interrupts: four(given.output.interrupts),
        lines: four(given.output.lines),
    })
}

/// The reference's batch of the records and its ticks of the list.
fn reference_odd(n: usize, rows: &[Row], bytes: &[u8], summary: &mut Summary) -> Option<Odd> {
    let (mut state, _) = reference::Handler::new(n as u64);
    let mut after = state.clone();
    let mut words = vec![0; rows.len()];
    let answer = reference::batch(&mut after, WRITTEN, bytes, &mut words);
    if answer != 0 {
        return Some(Odd::new(REFERENCE_BATCH, "answer", 0, answer));
    }
    for (at, (row, got)) in rows.iter().zip(&words).enumerate() {
        let access = reference_access(row.access());
        let sample = reference_sample(&row.sample());
        let wanted = word(&state.tick(access, &sample).outcome());
        if wanted != *got {
            return Some(Odd::word(REFERENCE_BATCH, at, wanted, *got));
        }
        summary.tick(wanted);
    }
    state_odd(REFERENCE_BATCH, state == after)
}

/// Whether a batch ends in the state that the ticks end in.
fn state_odd(call: &'static str, same: bool) -> Option<Odd> {
    (!same).then(|| Odd::new(call, "state", "as by ticks", "another"))
}

#[cfg(test)]
mod tests {
    use super::*;
    use crate::rng::Rng;
    use crate::write::{reference_record, PROVED};

    /// A list that the reference writes, and its bytes.
    fn written(rng: &mut Rng) -> (Entries, Vec<u8>) {
        loop {
            let entries = Entries::new(rng);
            let mut bytes = vec![0; entries.lent().kinds.len() * WRITTEN_BYTES];
            if reference_record(entries.lent(), &mut bytes).0 > 0 {
                return (entries, bytes);
            }
        }
    }

    #[test]
    fn a_flipped_bit_of_the_written_bytes_is_read_back() {
        let mut rng = Rng::new(8);
        for _ in 0..200 {
            let (entries, mut bytes) = written(&mut rng);
            let rows = entries.lent().rows();
            assert!(parse_odd(&rows, &bytes).is_none());
            let bit = rng.below(8 * bytes.len() as u64) as usize;
            bytes[bit / 8] ^= 0x80 >> (bit % 8);
            let found = parse_odd(&rows, &bytes).expect("seen");
            assert_eq!(found.field, format!("record {}", bit / 8 / WRITTEN_BYTES));
            assert!(parse_odd(&rows, &bytes[WRITTEN_BYTES..]).is_some());
        }
    }

    #[test]
    fn another_list_gives_other_words() {
        let mut rng = Rng::new(9);
        let mut seen = 0;
        for _ in 0..200 {
            let (entries, mut bytes) = written(&mut rng);
            let rows = entries.lent().rows();
            let mut summary = Summary::default();
            assert!(proved_odd(&PROVED, entries.n, &rows, &bytes).is_none());
            assert!(reference_odd(entries.n, &rows, &bytes, &mut summary).is_none());
            // The wires the wrong way round show in words or in the state.
            for record in bytes.chunks_exact_mut(WRITTEN_BYTES) {
                record[8..70].rotate_left(31);
            }
            let proved = proved_odd(&PROVED, entries.n, &rows, &bytes).is_some();
            let twin = reference_odd(entries.n, &rows, &bytes, &mut summary).is_some();
            seen += u64::from(proved && twin);
        }
        assert!(seen > 150, "{seen}");
    }
}
