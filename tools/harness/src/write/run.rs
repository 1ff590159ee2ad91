//! The run over lists, one seed each.

use super::again::write_again;
use super::compare::record_odd;
use super::found::Found;
use super::read_back::read_back;
use super::subject::{reference_record, Subject};
use super::summary::Summary;
use crate::calls::Odd;
use crate::entries::{Buffer, Entries};
use crate::rng::Rng;

/// The lists in the default set.
pub const DEFAULT_LISTS: u64 = 10_000;

/// Tries lists from a seed on until one differs or the number is reached.
pub fn try_lists(subject: &Subject, seed: u64, lists: u64, summary: &mut Summary) -> Option<Found> {
    for place in 0..lists {
        let seed = seed.wrapping_add(place);
        let mut rng = Rng::new(seed ^ (0xC3 << 56));
        let entries = Entries::new(&mut rng);
        let buffer = Buffer::around(entries.lent().kinds.len(), &mut rng);
        let odd = write(subject, &entries, &buffer, summary)
            .or_else(|| write_again(subject, &mut rng, summary));
        if let Some(odd) = odd {
            return Some(Found {
                seed,
                way: entries.way,
                lengths: entries.lent().lengths(),
                buffer: buffer.bytes().len(),
                odd,
            });
        }
    }
    None
}

/// One list through both writers; what was written is read back.
fn write(
    subject: &Subject,
    entries: &Entries,
    buffer: &Buffer,
    summary: &mut Summary,
) -> Option<Odd> {
    let mut wanted = buffer.clone();
    let answer = reference_record(entries.lent(), wanted.lent()).0;
    summary.list(entries, buffer, answer);
    record_odd(subject, entries, buffer, (answer, &wanted)).or_else(|| {
        let length = usize::try_from(answer).ok()?;
        read_back(subject, entries, &wanted.bytes()[..length], summary)
    })
}
