//! What pairs, pings and states show, and no word does: ticks and accounts of them that go wrong in one reading of requests
//! (viii), (ix) and (xi). The run over states must find each.

use harness::calls::Found;
use harness::states::{try_all, Subject, Summary, PROVED};
use heard::HEARD;
use lines::{CHECKED, LINE_PINGS, SENT};
use ticks::{ACKNOWLEDGE, ANSWERED, NOWHERE, OPENED};
use turns::{OPEN, TURNS};

mod heard;
mod lines;
mod ticks;
mod turns;
mod words;

/// What is found with a wrong subject; its seed alone repeats it.
fn found(subject: &Subject) -> Option<Found> {
    let found = try_all(subject, 1, 20_000, &mut Summary::default())?;
    let again = try_all(subject, found.seed, 1, &mut Summary::default());
    assert_eq!(again.expect("repeats").odd.field, found.odd.field);
    Some(found)
}

/// The names of those that are not found.
fn missed<'a>(wrong: impl Iterator<Item = (&'a str, Subject)>) -> Vec<&'a str> {
    let missed = wrong.filter(|(name, subject)| match found(subject) {
        Some(found) => {
            println!(
                "{name}: seed {} ({}), {}",
                found.seed, found.way, found.odd.field
            );
            false
        }
        None => true,
    });
    missed.map(|(name, _)| name).collect()
}

#[test]
fn the_run_over_states_finds_every_wrong_tick() {
    let alerts = [ACKNOWLEDGE, OPENED, ANSWERED, NOWHERE, TURNS, OPEN];
    let lines = [SENT, CHECKED, LINE_PINGS];
    let all = alerts.into_iter().chain(lines).flatten();
    let wrong = all.map(|(name, tick)| {
        (
            *name,
            Subject {
                tick: *tick,
                ..PROVED
            },
        )
    });
    let missed = missed(wrong);
    assert!(missed.is_empty(), "not found: {missed:?}");
}

#[test]
fn the_run_over_states_finds_every_wrong_account() {
    let wrong = HEARD.iter();
    let missed = missed(wrong.map(|(name, hear)| {
        (
            *name,
            Subject {
                hear: *hear,
                ..PROVED
            },
        )
    }));
    assert!(missed.is_empty(), "not found: {missed:?}");
}
