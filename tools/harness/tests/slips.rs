//! Slips that look right, each put into a copy of the reference by replacing
//! one piece of its text: the default set must find every one of them.

use copied::{library, program, Slip, REFERENCE};
use handler::Edition;
use harness::compare::{compare_all, in_turn, Coverage, DEFAULT_SEED, DEFAULT_TRACES};
use list::slips;
use std::fs;
use std::path::{Path, PathBuf};
use std::thread;

mod copied;
mod list;

/// The reference's program with the slip put in.
fn build(number: usize, slip: &Slip) -> PathBuf {
    let directory = library(&format!("slip{number}"), slip);
    program(&directory, "bin/reference-replay.rs")
}

/// Which trace of the default set finds the slip, if one does.
fn finder(replay: &Path) -> Option<String> {
    // In turn, since a slip may show in one edition alone.
    let traces = Edition::ALL.len() * DEFAULT_TRACES as usize;
    let cases = in_turn(Edition::ALL.to_vec(), DEFAULT_SEED).take(traces);
    let found = compare_all(replay, cases, &mut Coverage::default()).unwrap()?;
    let (kind, seed) = (found.case.kind.name(), found.case.seed);
    let edition = found.case.edition.name();
    let records = found
        .case
        .records
        .map_or(String::new(), |r| format!(" record {r}"));
    Some(format!("{kind} seed {seed} of edition {edition}{records}"))
}

/// The slip's name, where the default set does not find it.
fn missed(number: usize, slip: &Slip) -> Option<&'static str> {
    match finder(&build(number + 1, slip)) {
        Some(found) => {
            println!("{:2} {}: {found}", number + 1, slip.name);
            None
        }
        None => Some(slip.name),
    }
}

/// Whether the right text of a slip is found exactly once.
fn stands(slip: &Slip) -> bool {
    let folders = ["", "bin"].map(|folder| Path::new(REFERENCE).join(folder));
    let mut files = folders.iter().map(|folder| folder.join(slip.file));
    let text = files.find_map(|file| fs::read_to_string(file).ok());
    text.map_or(false, |text| text.matches(slip.right).count() == 1)
}

#[test]
fn every_slip_has_its_place() {
    let lost: Vec<&str> = slips()
        .filter(|slip| !stands(slip))
        .map(|slip| slip.name)
        .collect();
    assert!(lost.is_empty(), "not once in its file: {lost:?}");
}

/// On every core: each slip is a program of its own.
#[test]
fn the_default_set_finds_every_slip() {
    let cores = thread::available_parallelism().map_or(1, usize::from);
    let part = |core| slips().enumerate().skip(core).step_by(cores);
    let missed: Vec<&str> = thread::scope(|scope| {
        let look = |core| move || part(core).filter_map(|(n, slip)| missed(n, slip)).collect();
        let parts: Vec<_> = (0..cores).map(|core| scope.spawn(look(core))).collect();
        let joined = parts.into_iter().map(|part| part.join().expect("a part"));
        joined.collect::<Vec<Vec<&str>>>().concat()
    });
    assert!(missed.is_empty(), "not found: {missed:?}");
}

/// Without a slip the same way of building gives a program that is equal.
#[test]
fn a_plain_copy_is_equal() {
    let nothing = Slip {
        name: "no slip",
        file: "",
        right: "",
        wrong: "",
    };
    assert_eq!(finder(&build(0, &nothing)), None);
}
