//! What docs/PAPERS.md cites is there: definitions, laws, examples, cases, files and rows.
mod common;

use common::page::{cited, page, prose, rows};
use common::{example, repository};
use std::fs;
use std::path::Path;

fn text(name: &str) -> String {
    fs::read_to_string(repository(name)).unwrap_or_default()
}

/// A module of a crate, from its definitions or its proofs, whose folders are subjects.
fn module(krate: &str, name: &str) -> String {
    let of = |folder: &str| text(&format!("crates/{krate}/{folder}/{name}.antt"));
    let proofs = fs::read_dir(repository(&format!("crates/{krate}/proofs")));
    let subjects = proofs.into_iter().flatten().flatten();
    let subjects = subjects.filter_map(|entry| entry.file_name().into_string().ok());
    let inside: String = subjects
        .map(|folder| of(&format!("proofs/{folder}")))
        .collect();
    of("specs") + &of("proofs") + &inside
}

/// All definitions of a crate.
fn definitions(krate: &str) -> String {
    let files = fs::read_dir(repository(&format!("crates/{krate}/specs"))).expect(krate);
    let file = |entry: fs::DirEntry| fs::read_to_string(entry.path()).unwrap_or_default();
    files.map(|entry| file(entry.expect("a file"))).collect()
}

/// Does a line of these give the name its type?
fn declares(lines: &str, name: &str) -> bool {
    let keywords = ["abbrev", "unfoldable", "pub"];
    lines.lines().any(|line| {
        let words = line.split_whitespace();
        let mut words = words.skip_while(|word| keywords.contains(word));
        words.next() == Some(name) && words.next() == Some(":")
    })
}

/// The fields of a record of a crate.
fn fields(krate: &str, record: &str) -> String {
    let all = definitions(krate);
    let start = format!("\npub record {record} ");
    let rest = all.split_once(&start).map_or("", |(_, rest)| rest);
    let inside = |line: &&str| line.is_empty() || line.starts_with(' ');
    let fields = rest.lines().skip(1).take_while(inside);
    fields.map(|line| format!("{line}\n")).collect()
}

/// `Module.name` or `Record.field`, or a name alone.
fn is_in(krate: &str, name: &str) -> bool {
    match name.split_once('.') {
        Some((of, name)) => declares(&(module(krate, of) + &fields(krate, of)), name),
        None => declares(&definitions(krate), name),
    }
}

/// A case that is run, as `slips::threshold`, or one of the list that is proved.
fn is_case(name: &str) -> bool {
    match name.split_once("::") {
        Some((file, function)) => {
            text(&format!("crates/cases/src/{file}.rt"))
                .contains(&format!("pub fn {function}(rt: "))
                && text("crates/cases/src/main.rt").contains(&format!("    {name}(&rt);"))
        }
        None => declares(&fields("cases", "List12"), name),
    }
}

/// Words that name nothing in a file.
const PLAIN: [&str; 7] = [
    "count", "explain", "raised", "record", "ticks", "--papers", "|",
];

/// A command that help tells, with its options.
fn is_told(command: &str, options: &[&str]) -> bool {
    let help = text(&format!("launcher/help/{command}.txt"));
    !help.is_empty() && options.iter().all(|option| help.contains(option))
}

fn exists(cited: &str) -> bool {
    let words: Vec<&str> = cited.split(' ').collect();
    match words[..] {
        ["./tarravane", command, ref options @ ..] => is_told(command, options),
        [call] if call.starts_with("tarravane_") => {
            text("include/tarravane.h").contains(&format!(" {call}("))
        }
        [path] if path.contains('/') => Path::new(&repository(path)).exists(),
        [name] if name.contains('.') => is_in("rules", name),
        [word] => PLAIN.contains(&word),
        ["cases", name] => is_case(name),
        [examples, name] if examples.ends_with("Examples") => ["rules", "rule_examples"]
            .iter()
            .any(|krate| declares(&module(krate, examples), name)),
        [krate, name] => is_in(krate, name),
        [krate, examples, name] if examples.ends_with("Examples") => {
            declares(&module(krate, examples), name)
        }
        _ => false,
    }
}

#[test]
fn every_name_is_there() {
    let cited = cited();
    assert!(cited.len() > 200, "{}", cited.len());
    let missing: Vec<String> = cited.into_iter().filter(|name| !exists(name)).collect();
    assert!(missing.is_empty(), "{missing:?}");
    for missing in [
        "Samples.risen",
        "escalation Demand3.lock",
        "TickExamples fourth",
        "cases slips::three_alerts",
        "cases P13",
        "crates/cases/src/slip.rt",
        "tarravane_wipe",
        "./tarravane wipe",
        "./tarravane dump --at-end",
    ] {
        assert!(!exists(missing), "{missing}");
    }
}

#[test]
fn every_example_is_there() {
    let prose = prose();
    let words = prose.split_whitespace();
    let files = words.filter_map(|word| word.strip_prefix("examples/"));
    let names = files.map(|file| file.trim_end_matches([',', '.', ';', ')', ':']));
    let mut count = 0;
    for name in names {
        assert!(Path::new(&example(name)).exists(), "{name}");
        count += 1;
    }
    assert!(count > 10, "{count}");
}

/// Rows are numbered in their order, and each says how it stands here.
#[test]
fn every_row_has_its_word() {
    let mut last = (9, 0);
    for (number, words) in rows() {
        let (paper, row) = number.split_once('.').expect("a paper and a row");
        let row = (paper.parse().expect("a paper"), row.parse().expect("a row"));
        let next = if row.0 == last.0 { last.1 + 1 } else { 1 };
        assert_eq!(row, (row.0, next));
        last = row;
        let told = [
            "**As here**",
            "**As ",
            "**Decided otherwise**",
            "**Comes with request",
            "**Outside**",
        ];
        assert!(told.iter().any(|told| words.contains(told)), "{number}");
    }
    assert_eq!(last.0, 3);
}

/// A row that another one names is there.
#[test]
fn every_row_that_is_named_is_there() {
    let numbers: Vec<String> = rows().into_iter().map(|(number, _)| number).collect();
    let page = page();
    let parts = page.split(|c: char| !(c.is_ascii_digit() || c == '.'));
    let named = parts.map(|part| part.trim_matches('.'));
    let named: Vec<&str> = named.filter(|part| part.contains('.')).collect();
    assert!(named.len() > numbers.len() + 200, "{}", named.len());
    for row in named {
        assert!(numbers.iter().any(|number| number == row), "{row}");
    }
}
