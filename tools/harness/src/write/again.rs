//! What was read is written again.

use super::compare::record_odd;
use super::subject::Subject;
use super::summary::Summary;
use crate::calls::Odd;
use crate::entries::{Buffer, Entries, Row, Way};
use crate::record::WRITTEN_BYTES;
use crate::rng::Rng;
use handler::Wires;
use reference::trace::parse;
use reference::writer::WRITTEN;

/// The name of a call that writes what was read.
pub const AGAIN: &str = "record of what was read";

/// Random well-formed records, read by the reference and written again.
pub fn write_again(subject: &Subject, rng: &mut Rng, summary: &mut Summary) -> Option<Odd> {
    let records = rng.below(9) as usize;
    let more = rng.pick(&[0, 0, 1, WRITTEN_BYTES]);
    let buffer = Buffer::of(records * WRITTEN_BYTES + more, rng);
    let mut wanted = buffer.clone();
    let mut rows = Vec::new();
    for place in wanted.lent().chunks_exact_mut(WRITTEN_BYTES).take(records) {
        let record = well_formed(rng);
        place.copy_from_slice(&record);
        rows.push(row_of(parse(WRITTEN, &record)));
    }
    let entries = Entries::of(Way::Good, 1, &rows, rng);
    summary.again += records as u64;
    let answer = (records * WRITTEN_BYTES) as i64;
    let found = record_odd(subject, &entries, &buffer, (answer, &wanted))?;
    Some(Odd {
        call: AGAIN,
        ..found
    })
}

/// Random bytes with as little changed as makes a well-formed record.
fn well_formed(rng: &mut Rng) -> [u8; WRITTEN_BYTES] {
    let mut record = [0; WRITTEN_BYTES].map(|_: u8| rng.bits() as u8);
    record[1] &= 0xF8;
    record[2..4].fill(0);
    match record[0] >> 6 {
        0 => record[..8].fill(0),
        1 => record[4..8].fill(0),
        2 => {}
        _ => record[0] &= 0xBF,
    }
    record
}

/// The entry of a record as the reference reads it; a malformed one gets a
/// kind that the writer refuses.
fn row_of((access, sample): (reference::Access, reference::Sample)) -> Row {
    let (kind, register, value) = match access {
        reference::Access::None => (0, 0, 0),
        reference::Access::Read { register } => (1, register, 0),
        reference::Access::Write { register, value } => (2, register, value),
        reference::Access::Malformed => (3, 0, 0),
    };
    Row {
        kind,
        register,
        value,
        wires: Wires {
            pos: sample.pos,
            neg: sample.neg,
        },
        word: sample.word,
        receive: sample.receive.map_or((0, 0), |it| (it.pos, it.neg)),
    }
}

#[cfg(test)]
mod tests {
    use super::*;
    use crate::calls::reference_access;
    use handler::Access;

    #[test]
    fn well_formed_records_are_well_formed() {
        let mut rng = Rng::new(10);
        let mut kinds = [0; 3];
        for _ in 0..3000 {
            let (access, sample) = parse(WRITTEN, &well_formed(&mut rng));
            assert_ne!(access, reference::Access::Malformed);
            let row = row_of((access, sample));
            assert_eq!(reference_access(row.access()), access);
            assert_ne!(row.access(), Access::Malformed);
            kinds[usize::from(row.kind)] += 1;
        }
        assert!(kinds.into_iter().all(|count| count > 500));
    }
}
