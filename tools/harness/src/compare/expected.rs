//! Runs a trace through the reference.

use super::coverage::Coverage;
use crate::calls::reference_edition;
use crate::opened::opened;
use crate::record::{Head, WRITE};
use handler::registers::PING_ENABLE;
use handler::Edition;
use reference::trace::parse;
use reference::{batch, Handler};
use std::fmt::Write;

/// What the reference prints for the bytes; counts what it reached.
pub fn expected(bytes: &[u8], coverage: &mut Coverage) -> Vec<u8> {
    coverage.traces += 1;
    let input = opened(bytes);
    let edition = reference_edition(input.edition);
    coverage.counts.insert(input.n.map_or(0, u64::from));
    let (mut handler, answer) = Handler::new(input.alerts());
    if answer != 0 {
        coverage.no_handler += 1;
        return b"refused\n".to_vec();
    }
    let records = input.records.chunks_exact(input.edition.bytes());
    let rest = records.remainder();
    let mut text = String::new();
    coverage.shadowed.begin();
    coverage.handshakes.begin();
    coverage.turns.begin();
    coverage.wired.begin();
    for record in records {
        let before = handler.clone();
        let mut word = [0];
        assert_eq!(batch(&mut handler, edition, record, &mut word), 0);
        reached(
            coverage,
            input.edition,
            record,
            word[0],
            [&before, &handler],
        );
        writeln!(text, "{:016x}", word[0]).expect("a string takes all");
    }
    coverage.end(&handler);
    if !rest.is_empty() {
        coverage.cut += 1;
        text.push_str("cut\n");
    }
    text.into_bytes()
}

/// Takes in the tick of a record: its word, and the handler before and after.
fn reached(
    coverage: &mut Coverage,
    edition: Edition,
    record: &[u8],
    word: u64,
    [before, after]: [&Handler; 2],
) {
    let head = Head::of(edition, record);
    coverage.access(edition, head, word);
    coverage.tick(before, after, word);
    let (_, sample) = parse(reference_edition(edition), record);
    coverage.alone(before, after, &sample);
    coverage.turns.tick(before, after, &sample);
    coverage.wired.tick(before, after, &sample);
    let accepted = (word >> 52) & 15 == 0;
    if (head.kind, head.register) == (WRITE, PING_ENABLE) && accepted {
        coverage.turns.enabled(before, head.value);
    }
    coverage.handshakes.tick(before, after, &sample);
    let shadowed = &mut coverage.shadowed;
    shadowed.tick(edition, head, word, before, after);
    coverage.locking.tick(edition, head, word, before);
}
