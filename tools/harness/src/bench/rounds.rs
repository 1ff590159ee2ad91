//! The rounds of a load.

use super::load::{load, Load, Made};
use super::timed::Timed;
use super::ROUNDS;
use crate::calls::{handler_of, reference_edition, told_apart};
use handler::{Edition, Handler, Word};
use std::time::{Duration, Instant};

/// Times one load, both sides in turn.
pub fn time(edition: Edition, kind: Load, name: &str, records: usize) -> Timed {
    let Made { first, bytes } = load(edition, kind, records);
    let mut words = vec![Word(0); records];
    let mut numbers = vec![0; records];
    let mut timed = Timed::new(name, edition.alerts(), records);
    for _ in 0..ROUNDS {
        // Neither side may live on the words of the round before.
        words.fill(Word(u64::MAX));
        numbers.fill(0);
        let (state, proved) = proved_round(handler_of(&first), edition, &bytes, &mut words);
        let (twin, reference) = reference_round(first.clone(), edition, &bytes, &mut numbers);
        let same = words
            .iter()
            .zip(&numbers)
            .all(|(word, number)| word.0 == *number);
        let ended = told_apart(state) == told_apart(handler_of(&twin));
        timed.round(proved, reference, same && ended);
    }
    timed
}

/// One call of the proved batch. Callgrind counts inside by the name, so that it
/// stays a function of its own.
#[inline(never)]
pub fn proved_round(
    state: Handler,
    edition: Edition,
    bytes: &[u8],
    words: &mut [Word],
) -> (Handler, Duration) {
    let begin = Instant::now();
    let (state, answer) = state.batch(edition, bytes, words);
    let spent = begin.elapsed();
    assert_eq!(answer.0, 0);
    (state, spent)
}

/// The same of the reference.
#[inline(never)]
pub fn reference_round(
    mut state: reference::Handler,
    edition: Edition,
    bytes: &[u8],
    numbers: &mut [u64],
) -> (reference::Handler, Duration) {
    let edition = reference_edition(edition);
    let begin = Instant::now();
    let answer = reference::batch(&mut state, edition, bytes, numbers);
    let spent = begin.elapsed();
    assert_eq!(answer, 0);
    (state, spent)
}
