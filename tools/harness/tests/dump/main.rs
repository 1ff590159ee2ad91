//! That the run over dumps meets what it is there for, and finds the slips that
//! a writer or a reader may have.

use harness::bench::{dumped_states, time_dump};
use harness::compare::DEFAULT_SEED;
use harness::dump::{
    state_of, try_dumps, Found, Reader, Subject, Summary, Writer, DEFAULT_DUMPS, PROVED,
};
use readers::right;
use writers::write;

mod fields;
mod readers;
mod writers;

/// What is found with a wrong subject; its seed alone repeats it.
fn found(dump: Writer, read: Reader) -> Option<Found> {
    let subject = Subject { dump, read };
    let found = try_dumps(
        &subject,
        DEFAULT_SEED,
        DEFAULT_DUMPS,
        &mut Summary::default(),
    )?;
    let again = try_dumps(&subject, found.seed, 1, &mut Summary::default());
    assert_eq!(again.expect("repeats").odd.field, found.odd.field);
    Some(found)
}

/// The names of those that are not found.
fn missed<'a>(all: impl Iterator<Item = (&'a str, Option<Found>)>) -> Vec<&'a str> {
    let mut missed = Vec::new();
    for (name, found) in all {
        match found {
            Some(found) => println!(
                "{name}: seed {} ({}), {}: {}, {}",
                found.seed, found.way, found.what, found.odd.call, found.odd.field
            ),
            None => missed.push(name),
        }
    }
    missed
}

#[test]
fn the_default_set_finds_every_writers_slip() {
    let slips = writers::SLIPS.iter();
    let all = slips.map(|(name, slip)| {
        let dump: Writer = &|state, out| write(Some(slip), state, out);
        (*name, found(dump, &right))
    });
    assert_eq!(missed(all), [""; 0]);
}

#[test]
fn the_default_set_finds_every_readers_slip() {
    let slips = readers::SLIPS.iter();
    let right: Writer = &|state, out| write(None, state, out);
    let all = slips.map(|(name, read)| (*name, found(right, read)));
    assert_eq!(missed(all), [""; 0]);
}

/// Without a slip both are equal.
#[test]
fn the_writer_and_the_reader_without_a_slip_are_equal() {
    let found = found(&|state, out| write(None, state, out), &right);
    assert!(found.is_none(), "{}", found.unwrap());
}

#[test]
fn the_default_set_meets_every_kind() {
    let mut summary = Summary::default();
    let found = try_dumps(&PROVED, DEFAULT_SEED, DEFAULT_DUMPS, &mut summary);
    assert!(found.is_none(), "{}", found.unwrap());
    assert_eq!(summary.missed(), [""; 0]);
    assert_eq!(summary.states, DEFAULT_DUMPS);
    assert!(summary.thorough > 10 && summary.verdicts.iter().all(|count| *count > 5000));
}

/// Nothing is met where nothing was tried.
#[test]
fn what_is_never_met_is_told() {
    let missed = Summary::default().missed();
    for name in [
        "N of 0",
        "N of 248",
        "class 3 in STATE 7",
        "lone stage at 5",
        "stage at 1338",
        "lock 1330 at 1",
        "cause 46 at 0",
        "cut in N",
        "bit of padding, 16",
        "twist: STATE of 2",
        "writer: 7, a short buffer",
        "state: the longest dump",
        "no bytes",
    ] {
        assert!(missed.contains(&name.to_string()), "{name}");
    }
    assert!(!missed.contains(&"cut in padding".to_string()));
}

/// What is timed is equal: bytes and contents.
#[test]
fn timed_dumps_are_equal() {
    let [usual, longest] = dumped_states();
    for state in [usual, longest] {
        assert!(time_dump(state, 2).iter().all(|timed| timed.equal));
    }
    assert_eq!(longest.dump(&mut [0; handler::DUMP_MOST]).0, 3332);
    assert_eq!(usual.dump(&mut [0; handler::DUMP_MOST]).0, 50);
}

/// The state that holds a content has it in its dump.
#[test]
fn a_state_holds_what_is_shown() {
    let (state, _) = handler::Handler::new(248);
    let mut out = [0; handler::DUMP_MOST];
    let length = state.dump(&mut out).bytes().expect("it is written");
    let (content, _) = handler::read_dump(&out[..length]);
    assert!(state_of(&content) == state);
}
