//! One call of the writer beside what is wanted of it.

use super::subject::Subject;
use crate::calls::Odd;
use crate::entries::{Buffer, Entries};

/// Whether the subject answers and writes what is wanted, and nothing else.
pub fn record_odd(
    subject: &Subject,
    entries: &Entries,
    buffer: &Buffer,
    (answer, wanted): (i64, &Buffer),
) -> Option<Odd> {
    let (given, mut got) = (entries.clone(), buffer.clone());
    let got_answer = (subject.record)(given.lent(), got.lent()).0;
    if got_answer != answer {
        return Some(Odd::new("record", "answer", answer, got_answer));
    }
    if let Some((at, wanted, got)) = wanted.differs(&got) {
        let field = format!("byte {at} of the buffer");
        let (wanted, got) = (format!("{wanted:02x}"), format!("{got:02x}"));
        return Some(Odd::new("record", field, wanted, got));
    }
    if given != *entries {
        return Some(Odd::new("record", "the lent list", "as before", "changed"));
    }
    None
}
