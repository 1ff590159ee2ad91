//! That the run over the trace writer reaches what it is there for, and finds
//! the slips that a writer may have.

use handler::{Access, Answer, Edition, Handler, Sample, Ticked, Wires, Word};
use harness::compare::DEFAULT_SEED;
use harness::record::WRITTEN_BYTES;
use harness::write::{reference_record, try_lists, Found, Subject, Summary, DEFAULT_LISTS, PROVED};
use slips::SLIPS;
use std::mem::swap;

mod slip;
mod slips;

/// The subject without a slip: the reference's writer.
const RIGHT: Subject = Subject {
    record: &reference_record,
    ..PROVED
};

/// What is found with a wrong subject; its seed alone repeats it.
fn found(subject: &Subject) -> Option<Found> {
    let found = try_lists(
        subject,
        DEFAULT_SEED,
        DEFAULT_LISTS,
        &mut Summary::default(),
    )?;
    let again = try_lists(subject, found.seed, 1, &mut Summary::default());
    let again = again.expect("repeats");
    assert_eq!(again.odd.field, found.odd.field);
    assert_eq!(again.odd.got, found.odd.got);
    Some(found)
}

#[test]
fn the_default_set_finds_every_slip() {
    let mut missed = Vec::new();
    for slip in SLIPS {
        let subject = Subject {
            record: &|list, out| slip.record(list, out),
            ..PROVED
        };
        match found(&subject) {
            Some(found) => println!(
                "{}: seed {}, {}, {}",
                slip.name(),
                found.seed,
                found.odd.call,
                found.odd.field
            ),
            None => missed.push(slip.name()),
        }
    }
    assert!(missed.is_empty(), "not found: {missed:?}");
}

#[test]
fn the_default_set_reaches_every_case() {
    let mut summary = Summary::default();
    assert!(try_lists(&RIGHT, DEFAULT_SEED, DEFAULT_LISTS, &mut summary).is_none());
    assert_eq!(summary.lists, DEFAULT_LISTS);
    assert!(summary.ways.iter().all(|count| *count > 300));
    let [unheld, short] = summary.refused;
    assert_eq!(summary.written + unheld + short, DEFAULT_LISTS);
    assert!(summary.written > 2000 && unheld > 2000 && short > 1000);
    assert!(summary.empty > 100 && summary.later > 500 && summary.both > 500);
    // A good part of the samples shows in the words.
    assert!(summary.ticks > 20_000 && summary.showing * 5 > summary.ticks);
    assert!(summary.again > 20_000);
}

#[test]
fn the_proved_writer_is_equal() {
    let mut summary = Summary::default();
    let found = try_lists(&PROVED, DEFAULT_SEED, DEFAULT_LISTS, &mut summary);
    assert!(found.is_none(), "{}", found.unwrap());
}

#[test]
fn a_batch_that_does_not_read_what_was_written_is_found() {
    fn batch(h: Handler, e: Edition, bytes: &[u8], out: &mut [Word]) -> (Handler, Answer) {
        // Takes the register from ten bits.
        let mut cut = bytes.to_vec();
        for record in cut.chunks_exact_mut(WRITTEN_BYTES) {
            record[0] &= !0x20;
        }
        h.batch(e, &cut, out)
    }
    let found = found(&Subject { batch, ..RIGHT }).expect("found");
    assert_eq!(found.odd.call, "batch of the written");
}

#[test]
fn a_tick_that_takes_other_wires_is_found() {
    fn tick(h: Handler, access: Access, mut sample: Sample) -> Ticked {
        let Wires { pos, neg } = &mut sample.alerts;
        swap(pos, neg);
        h.tick(access, sample)
    }
    let found = found(&Subject { tick, ..RIGHT }).expect("found");
    assert_eq!(found.odd.call, "batch of the written");
}
