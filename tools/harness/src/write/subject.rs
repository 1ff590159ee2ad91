//! The calls under test, and the reference's writer beside them.

use crate::calls::{Batch, Tick};
use crate::entries::Lent;
use handler::{Answer, Handler, WORDS};
use reference::answer::Refusal;

/// The calls under test; a test puts wrong ones in.
pub struct Subject<'a> {
    /// The writer, on a list and the lent buffer.
    pub record: &'a dyn Fn(Lent, &mut [u8]) -> Answer,
    /// One tick.
    pub tick: Tick,
    /// A batch.
    pub batch: Batch,
}

/// The proved library.
pub const PROVED: Subject = Subject {
    record: &proved_record,
    tick: Handler::tick,
    batch: Handler::batch,
};

/// The proved writer.
fn proved_record(list: Lent, out: &mut [u8]) -> Answer {
    let Lent {
        kinds,
        registers,
        values,
        positive,
        negative,
        entropy,
        receive_positive,
        receive_negative,
    } = list;
    let lists = handler::Lists {
        kinds,
        registers,
        values,
        positive,
        negative,
        entropy,
        receive_positive,
        receive_negative,
    };
    handler::record_numbers(lists, out)
}

/// The wires of whole entries, as the reference takes them.
fn sides(words: &[u64]) -> Option<Vec<reference::Wires>> {
    let entries = words.chunks(WORDS);
    entries.map(|entry| entry.try_into().ok()).collect()
}

/// The reference's writer. It has no list in which the words of an entry or
/// one wire of its receive pairs are not all there: that is one of slices that
/// do not fit together.
pub fn reference_record(list: Lent, out: &mut [u8]) -> Answer {
    let (positive, negative) = match (sides(list.positive), sides(list.negative)) {
        (Some(positive), Some(negative)) => (positive, negative),
        _ => return Answer(Refusal::Unrecordable.answer()),
    };
    let pairs = list.receive_positive.iter().zip(list.receive_negative);
    let receive: Vec<reference::LinePairs> = pairs
        .map(|(pos, neg)| reference::LinePairs {
            pos: *pos,
            neg: *neg,
        })
        .collect();
    if list.receive_positive.len() != list.receive_negative.len() {
        return Answer(Refusal::Unrecordable.answer());
    }
    Answer(reference::record(
        list.kinds,
        list.registers,
        list.values,
        &positive,
        &negative,
        list.entropy,
        &receive,
        out,
    ))
}
