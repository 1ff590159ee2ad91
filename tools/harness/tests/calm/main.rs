//! That the run over calm calls meets what it is there for, and finds the slips
//! that an engine may have.

use engine::{Engine, RIGHT};
use harness::bench::{calms, time_calm};
use harness::calm::{try_calms, Calm, Found, Summary, DEFAULT_CALMS, PROVED};
use harness::compare::DEFAULT_SEED;

mod engine;
mod slips;

/// What is found with a wrong engine; its seed alone repeats it.
fn found(calm: Calm) -> Option<Found> {
    let found = try_calms(calm, DEFAULT_SEED, DEFAULT_CALMS, &mut Summary::default())?;
    let again = try_calms(calm, found.seed, 1, &mut Summary::default());
    assert_eq!(again.expect("repeats").odd.field, found.odd.field);
    Some(found)
}

fn found_with(engine: &Engine) -> Option<Found> {
    found(&|state, wires, ticks, list| engine.calm(state, wires, ticks, list))
}

#[test]
fn the_default_set_finds_every_slip() {
    let parts = [slips::TICKS, slips::JUMPS, slips::SAMPLES];
    let given = [slips::WORDS, slips::GIVEN, slips::REFUSED];
    let mut missed = Vec::new();
    for (name, slip) in parts.into_iter().chain(given).flatten() {
        let mut engine = RIGHT;
        slip(&mut engine);
        match found_with(&engine) {
            Some(found) => println!(
                "{name}: seed {} ({}), {}: {}, {}",
                found.seed, found.way, found.what, found.odd.call, found.odd.field
            ),
            None => missed.push(name),
        }
    }
    assert!(missed.is_empty(), "not found: {missed:?}");
}

/// The default set is equal and meets every kind; and far beyond plain ticks
/// the proved engine gives what the other one gives, call by call.
#[test]
fn the_default_set_meets_every_kind() {
    let long = std::cell::Cell::new(0);
    let both: Calm = &|state, wires, ticks, list| {
        let mut other = list.to_vec();
        let wanted = RIGHT.calm(state, wires, ticks, &mut other);
        let got = PROVED(state, wires, ticks, list);
        assert!(got == wanted && other == list, "{ticks} ticks");
        long.set(long.get() + u64::from(ticks > 1 << 31 && got.answer.0 > 0));
        got
    };
    let mut summary = Summary::default();
    let found = try_calms(both, DEFAULT_SEED, DEFAULT_CALMS, &mut summary);
    assert!(found.is_none(), "{}", found.unwrap());
    assert_eq!(summary.missed(), [""; 0]);
    assert_eq!(summary.states, DEFAULT_CALMS);
    assert!(summary.joined > 5000 && summary.reference > 10_000);
    assert!(long.get() > 5000, "{}", long.get());
}

/// What is timed is equal: states and changes in one go and one by one.
#[test]
fn timed_ticks_are_equal() {
    for calm in calms() {
        for ticks in [0, 1, 2, 1_000] {
            assert!(time_calm(&calm, ticks).equal, "{} {ticks}", calm.name);
        }
    }
}

/// Nothing is met where nothing was tried.
#[test]
fn what_is_never_met_is_told() {
    let missed = Summary::default().missed();
    assert!(missed.contains(&"threshold met inside a jump".to_string()));
    assert!(missed.contains(&"refusal 18, entries 19".to_string()));
    assert!(!missed.contains(&"refusal 18, entries 20".to_string()));
}
