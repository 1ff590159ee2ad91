//! The papers' names of registers: the table of docs/PAPERS.md, `record` and `explain --papers`.
mod common;

use common::page::section;
use common::{example, explained, given, refused, said_of};
use handler::registers::{Naming, Register, INTR_BITS, MAP, MAP_64};

/// The table's words for alert 5, local alert 2, class C and phase 1.
fn filled(cell: &str) -> String {
    let pairs = [
        ("ALERTj", "ALERT2"),
        ("ALERTi", "ALERT5"),
        ("_j", "_2"),
        ("_i", "_5"),
        ("CLASSA", "CLASSC"),
        ("PHASEp", "PHASE1"),
    ];
    pairs
        .into_iter()
        .fold(cell.to_string(), |cell, (from, to)| cell.replace(from, to))
}

/// The number of `1287 + 16k + p`.
fn number(cell: &str) -> u16 {
    let term = |term: &str| match term {
        "16k" => 16 * 2,
        "i" => 5,
        "j" => 2,
        "p" => 1,
        _ => term.parse().expect("a number"),
    };
    cell.split(" + ").map(term).sum()
}

fn bits(register: Register) -> u32 {
    match register {
        Register::Local(field, _) | Register::Alert(field, _) => field.bits(),
        Register::Class(_, setting) => setting.bits(),
        Register::PingRegwen | Register::PingEnable => 1,
        Register::PingTimeout => 16,
        _ => INTR_BITS,
    }
}

/// The cells of each line of the table, below its head.
fn table() -> Vec<Vec<String>> {
    let section = section("Register names");
    let lines = section.lines().filter(|line| line.starts_with('|')).skip(2);
    let cells = |line: &str| {
        let cells = line.trim_matches('|').split('|');
        cells.map(|cell| cell.trim().to_string()).collect()
    };
    lines.map(cells).collect()
}

/// The paper's name is that of the tools, up to a field that the paper names with it.
fn check(register: Register, cells: &[String]) {
    let papers = Naming::Papers.name(register);
    let cell = filled(&cells[0]);
    let cell = cell.rsplit(", as ").next().expect("a name");
    let same = cell == papers || cell.starts_with(&format!("{papers}."));
    assert!(
        same || cell.starts_with("no name: ") && papers == register.to_string(),
        "{cell} {papers}"
    );
    assert_eq!(MAP.number(register), Some(number(&cells[3])), "{register}");
    let old = Some(&cells[4]).filter(|cell| *cell != "-");
    let old = old.map(|cell| number(cell));
    assert_eq!(MAP_64.number(register), old, "{register}");
    assert_eq!(bits(register).to_string(), cells[5], "{register}");
    assert_eq!(register.is_shadowed(), cells[2].ends_with(" (s)"));
}

#[test]
fn the_table_has_every_register() {
    let mut seen = Vec::new();
    for cells in table() {
        let here = filled(&cells[2]);
        let name = here.split([' ', ',']).next().expect("a name");
        match Register::named(name) {
            Some(register) => {
                check(register, &cells);
                seen.push(register);
            }
            None => assert_eq!(name, "none"),
        }
    }
    // Three of interrupts, three of the ping timer, an alert's four, a local alert's four, and a class's 13 with one line for
    // its four phases.
    assert_eq!(seen.len(), 3 + 3 + 4 + 4 + 10);
    let mut numbers: Vec<u16> = seen.iter().filter_map(|it| MAP.number(*it)).collect();
    numbers.sort_unstable();
    numbers.dedup();
    assert_eq!(numbers.len(), seen.len());
}

const OURS: &str = "alerts 6
    write ALERT5_EN 1
    write LOC_ALERT2_CLASS 3
    read LOC_ALERT2_CAUSE
    read ALERT0_CAUSE
    write ALERT5_REGWEN 0
    write CLASSA_CTRL 0x393f
    write CLASSD_PHASE3_CYC 7
    write CLASSA_REGWEN 0
    write INTR_STATE 1";

const PAPERS: &str = "alerts 6
    write ALERT_EN_SHADOWED_5 1
    write LOC_ALERT_CLASS_SHADOWED_2 3
    read LOC_ALERT_CAUSE_2
    read ALERT_CAUSE_0
    write ALERT_REGWEN_5 0
    write CLASSA_CTRL_SHADOWED 0x393f
    write CLASSD_PHASE3_CYC_SHADOWED 7
    write CLASSA_CTRL_SHADOWED.REGWEN 0
    write INTR_STATE 1";

/// The access of each row, without its answer.
fn accesses(rows: &[String]) -> Vec<String> {
    let access = |row: &String| {
        let words: Vec<&str> = row.split_whitespace().skip(1).collect();
        let number = if words[0] == "read" { 2 } else { 3 };
        words[..number].join(" ").trim_end_matches(':').to_string()
    };
    rows[2..].iter().map(access).collect()
}

/// A text in the papers' names gives the same bytes, in every edition, and `explain --papers` shows them again.
#[test]
fn record_takes_both_names_and_explain_shows_them() {
    for edition in ["", "edition 70\n", "edition 24\n"] {
        let [ours, papers] = [OURS, PAPERS].map(|text| {
            let trace = given("record", &["-"], format!("{edition}{text}").as_bytes());
            (trace, text.lines().skip(1).map(str::trim))
        });
        assert_eq!(ours.0, papers.0);
        let shown = accesses(&explained(&["-"], &ours.0));
        assert_eq!(shown, ours.1.collect::<Vec<_>>());
        let shown = accesses(&explained(&["-", "--papers"], &ours.0));
        assert_eq!(shown, papers.1.collect::<Vec<_>>());
    }
    for name in [
        "ALERT_EN_SHADOWED_248",
        "LOC_ALERT_CAUSE_7",
        "CLASSA_CTRL_SHADOWED.EN",
    ] {
        let problem = format!("line 2: no such register: {name}");
        let said = said_of(format!("alerts 6\nread {name}"));
        assert!(said.starts_with(&problem), "{said}");
    }
}

/// Of the newest edition also those of the ping timer.
#[test]
fn the_ping_timer_has_both_names() {
    let [ours, papers] = ["PING_TIMEOUT_CYC", "PING_TIMEOUT_CYC_SHADOWED"].map(|name| {
        let text =
            format!("alerts 1\nwrite {name} 9\nread PING_TIMER_EN\nread PING_TIMER_REGWEN\n");
        (given("record", &["-"], text.as_bytes()), name)
    });
    assert_eq!(ours.0, papers.0);
    for (words, name) in [(&["-"][..], ours.1), (&["-", "--papers"], papers.1)] {
        let shown = accesses(&explained(words, &ours.0));
        let first = format!("write {name} 9");
        assert_eq!(
            shown,
            [&first, "read PING_TIMER_EN", "read PING_TIMER_REGWEN"]
        );
    }
    for edition in ["24", "70"] {
        let said = said_of(format!("edition {edition}\nalerts 6\nread PING_TIMER_EN"));
        assert_eq!(said, "line 3: no such register: PING_TIMER_EN");
    }
}

/// Open stages too, in rows and in the summary; nothing else of what is shown is another.
#[test]
fn stages_have_the_papers_names() {
    let trace = given("record", &["-"], OURS.as_bytes());
    let staged = "ALERT_EN_SHADOWED_5";
    let wide = explained(&["-", "--papers", "--wide"], &trace);
    assert!(wide[2].ends_with(&format!("[staged: {staged} 1]")));
    let summary = explained(&["-", "--papers", "--summary"], &trace);
    let line = summary
        .iter()
        .find(|line| line.starts_with("shadow writes"));
    let line = line.expect("a line of shadow writes");
    assert!(line.contains(staged) && !line.contains("ALERT5_EN"));
    let seal = example("broken-seal.trace");
    let [ours, papers] = [&["--summary"][..], &["--summary", "--papers"]]
        .map(|words| explained(&[&[&seal[..]], words].concat(), &[]));
    assert_eq!(ours, papers);
    let why = "--summary has no rows: --only-changes and --wide do not go with it";
    let words = [&seal[..], "--summary", "--papers", "--wide"];
    assert_eq!(refused("explain", &words, &[]), why);
}
