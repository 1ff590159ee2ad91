//! What README shows of the commands is what they print.
mod common;

use common::folder::Folder;
use common::{given, repository};
use handler::Edition;
use std::fs;

fn readme() -> String {
    fs::read_to_string(repository("README.md")).expect("README")
}

/// The lines of the first block between fences after these words.
fn block(after: &str) -> String {
    let readme = readme();
    let (_, rest) = readme.split_once(after).expect(after);
    let (_, rest) = rest.split_once("\n```\n").expect("a block");
    let (block, _) = rest.split_once("\n```\n").expect("its end");
    format!("{block}\n")
}

/// Runs the words of a command that README has, and compares the block below it.
fn shows(command: &str) {
    let words: Vec<String> = command
        .split(' ')
        .map(|word| match word.strip_prefix("examples/") {
            Some(_) => repository(word),
            None => word.to_string(),
        })
        .collect();
    let words: Vec<&str> = words.iter().map(String::as_str).collect();
    let printed = given(words[0], &words[1..], &[]);
    let shown = block(&format!("./tarravane {command}"));
    assert_eq!(shown, String::from_utf8_lossy(&printed), "{command}");
}

#[test]
fn explain_prints_what_readme_shows() {
    shows("explain --only-changes examples/broken-seal.trace");
    shows("explain --summary examples/broken-seal.trace");
    shows("explain --from 9 --to 19 examples/silly-threshold.trace");
    shows("explain --from 29 --to 40 examples/stuck-sender.trace");
    shows("explain --from 28 --to 40 examples/cut-cable.trace");
}

#[test]
fn boot_prints_what_readme_shows() {
    shows("boot PROD");
}

#[test]
fn calm_prints_what_readme_shows() {
    shows("calm --to 21 examples/far-alert.trace 4294967295");
    shows("calm --to 15 examples/silly-threshold.trace 4294967295");
}

#[test]
fn read_prints_what_readme_shows() {
    shows("read examples/silly-threshold.dump");
}

/// The dump that README writes is the one that is stored.
#[test]
fn dump_writes_what_readme_names() {
    let (readme, folder) = (readme(), Folder::new("readme-dump"));
    let command = readme
        .lines()
        .find_map(|line| line.strip_prefix("    ./tarravane dump "))
        .expect("a command");
    let words: Vec<&str> = command.split_whitespace().take(4).collect();
    let to = folder.path("seal.dump");
    assert_eq!(words[1..], ["--at-start", "-o", "seal.dump"]);
    given("dump", &[&repository(words[0]), words[1], "-o", &to], &[]);
    let [written, stored] =
        [to, repository("examples/broken-seal.dump")].map(|name| fs::read(name).expect("a dump"));
    assert_eq!(written, stored);
}

/// The waves that README shows are written as it says; its picture is the one that is stored.
#[test]
fn wave_writes_what_readme_names() {
    let readme = readme();
    let folder = Folder::new("readme");
    let commands = readme
        .lines()
        .filter_map(|line| line.strip_prefix("    ./tarravane wave "));
    let mut count = 0;
    for command in commands {
        let words: Vec<&str> = command.split_whitespace().take(3).collect();
        let (trace, to) = match words[..] {
            [trace, "-o", to] => (trace, to),
            _ => panic!("{command}"),
        };
        given("wave", &[&repository(trace), "-o", &folder.path(to)], &[]);
        count += 1;
    }
    assert_eq!((count, folder.names().len()), (2, 3));
    assert!(readme.contains("](examples/broken-seal.svg)"));
    let [drawn, stored] = [
        folder.path("seal.svg"),
        repository("examples/broken-seal.svg"),
    ]
    .map(|name| fs::read_to_string(name).expect("a picture"));
    assert!(drawn == stored);
}

/// The text that README shows gives a trace, without a warning.
#[test]
fn record_takes_the_text_that_readme_shows() {
    let text = block("## Write a trace by hand");
    let ticks = text.lines().filter(|line| !line.starts_with('#')).count() - 1;
    let trace = given("record", &["-"], text.as_bytes());
    assert_eq!(trace.len(), 2 + Edition::NEWEST.bytes() * ticks);
}

/// README's list of the crates has every one.
#[test]
fn every_crate_has_its_line() {
    let crates = fs::read_to_string(repository("crates.txt")).expect("the crates");
    let listed = block("## The crates");
    // What stands behind a line's start or two spaces: a crate, or what it has.
    let pieces = listed.lines().flat_map(|line| line.split("  "));
    let firsts: Vec<&str> = pieces
        .filter_map(|piece| piece.split_whitespace().next())
        .collect();
    for line in crates.lines().filter(|line| !line.starts_with('#')) {
        // A static library has a word for that behind its name.
        let name = line.split([':', ' ']).next().expect("a name");
        assert!(firsts.contains(&name), "{name}");
    }
}
