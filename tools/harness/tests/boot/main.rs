//! That the run over boots reaches what it is there for, and finds the slips
//! that an installer may have.

use handler::boot::{entries, inputs};
use handler::{Access, Handler, Input, Lifecycle, Sample};
use harness::boot::{reference_install, try_boots, Install, Summary, DEFAULT_BOOTS, PROVED};
use harness::calls::{reference_access, Found};
use harness::compare::DEFAULT_SEED;
use slip::{Installer, Slip, RIGHT};

mod calls;
#[path = "../copied/mod.rs"]
mod copied;
mod faults;
mod plans;
mod slip;

/// Every slip; the default set must find each of them.
fn slips() -> impl Iterator<Item = &'static Slip> {
    let plans = [plans::ORDERS, plans::VALUES, plans::LOCKS];
    let calls = [calls::TICKS, calls::ENDS, calls::LIFECYCLES];
    plans.into_iter().chain(calls).flatten()
}

/// What is found with a wrong installer; its seed alone repeats it.
fn found(install: Install) -> Option<Found> {
    let mut summary = Summary::default();
    let found = try_boots(install, DEFAULT_SEED, DEFAULT_BOOTS, &mut summary)?;
    let again = try_boots(install, found.seed, 1, &mut Summary::default());
    assert_eq!(again.expect("repeats").odd.field, found.odd.field);
    Some(found)
}

#[test]
fn the_default_set_finds_every_slip() {
    let mut missed = Vec::new();
    for slip in slips() {
        let installer = Installer::with(slip);
        match found(&|state, lifecycle| installer.install(state, lifecycle)) {
            Some(found) => println!(
                "{}: seed {} ({}), {}",
                slip.name(),
                found.seed,
                found.way,
                found.odd.field
            ),
            None => missed.push(slip.name()),
        }
    }
    assert!(missed.is_empty(), "not found: {missed:?}");
}

/// Without a slip the same installer is equal: it has the tools' plan, so
/// that is the reference's, from every state.
#[test]
fn the_installer_without_a_slip_is_equal() {
    let right = Installer::with(&RIGHT);
    let found = found(&|state, lifecycle| right.install(state, lifecycle));
    assert!(found.is_none(), "{}", found.unwrap());
}

#[test]
fn the_default_set_reaches_every_case() {
    let mut summary = Summary::default();
    let found = try_boots(PROVED, DEFAULT_SEED, DEFAULT_BOOTS, &mut summary);
    assert!(found.is_none(), "{}", found.unwrap());
    assert_eq!(summary.boots, DEFAULT_BOOTS);
    assert!(summary.ways.iter().all(|count| *count > 300));
    assert!(summary.whole.iter().all(|count| *count > 100));
    assert!(summary.refused.iter().all(|count| *count > 300));
    assert_eq!(summary.other, 0);
    assert!(summary.links.iter().all(|count| *count > 200));
    assert!(summary.timer.iter().all(|count| *count > 100));
    // Of 62 that a lock guards first, and of 144 that are shadowed.
    let at = |answer| summary.stops.iter().filter(|stop| stop.0 == answer).count();
    assert!(at(-3) > 50 && at(-12) > 100);
}

/// The accesses that the tools write as a trace are those that the reference
/// has for the lifecycle, tick by tick.
#[test]
fn the_tools_have_the_accesses_of_the_reference() {
    for lifecycle in Lifecycle::ALL {
        let after = Handler::new(58).0.install(lifecycle).handler;
        let ticks: Vec<Input> = entries(&after).into_iter().flat_map(inputs).collect();
        assert!(ticks.iter().all(|tick| tick.sample == Sample::AT_REST));
        let own: Vec<_> = ticks
            .iter()
            .map(|tick| reference_access(tick.access))
            .collect();
        let wanted = reference::installer::accesses(lifecycle.number());
        assert_eq!(own, wanted, "{}", lifecycle.name());
        let reads = ticks
            .iter()
            .filter(|tick| matches!(tick.access, Access::Read(_)));
        assert_eq!(reads.count(), entries(&after).len());
    }
}

#[test]
fn both_installers_agree_on_new_handlers() {
    for n in 0..=248 {
        for lifecycle in 0..=6 {
            let new = Handler::new(n).0;
            let given = new.install_number(lifecycle);
            assert!(
                given == reference_install(new, lifecycle),
                "{n} {lifecycle}"
            );
            assert_eq!(given.is_whole(), n >= 58);
        }
    }
}
