//! The waves that docs/PAPERS.md shows are those that the cases print.
mod common;

use common::page::section;
use common::repository;
use std::fs;

/// The rows of a wave of a class, of an alert's pair, and of its receiver, by their place in a line that the case prints.
const CLASS: &[(&str, usize)] = &[
    ("CLASSA_STATE", 1),
    ("CLASSA_ESC_CNT", 2),
    ("CLASSA_ACCUM_CNT", 3),
    ("irq_o[0]", 4),
    ("lines", 5),
];
const PAIR: &[(&str, usize)] = &[
    ("ALERT0_CAUSE", 2),
    ("LOC_ALERT2_CAUSE", 3),
    ("CLASSA_STATE", 4),
    ("CLASSA_ACCUM_CNT", 5),
    ("CLASSB_ACCUM_CNT", 6),
    ("interrupts", 7),
    ("lines", 8),
];

const RECEIVER: &[(&str, usize)] = &[
    ("alert_p", 0),
    ("alert_n", 1),
    ("CLASSA_ACCUM_CNT", 3),
    ("CLASSB_ACCUM_CNT", 4),
    ("ack_p", 5),
    ("ack_n", 6),
    ("ping_p", 7),
    ("ping_n", 8),
];

/// Those of a line's pairs.
const LINE: &[(&str, usize)] = &[
    ("resp_p", 0),
    ("resp_n", 1),
    ("esc_p", 3),
    ("esc_n", 4),
    ("CLASSB_ACCUM_CNT", 5),
];

/// The lines that a case prints below its name, in words.
fn printed(wave: &str) -> Vec<Vec<String>> {
    let all = fs::read_to_string(repository("crates/cases/stdout")).expect("the cases");
    let start = format!("\n{wave}: ");
    let (_, rest) = all.split_once(&start).expect(wave);
    let words = |line: &str| line.split_whitespace().map(str::to_string).collect();
    let lines = rest.lines().skip(1);
    lines
        .take_while(|line| line.starts_with(' '))
        .map(words)
        .collect()
}

/// The values of a row of a block.
fn row(block: &str, name: &str, columns: usize) -> Vec<String> {
    let line = block.lines().find(|line| {
        let rest = line.strip_prefix(name);
        rest.map_or(false, |rest| rest.starts_with(' '))
    });
    let words = line.expect(name)[name.len()..].split_whitespace();
    words.take(columns).map(str::to_string).collect()
}

fn check(wave: &str, block: &str, names: &[(&str, usize)]) {
    let printed = printed(wave);
    assert_eq!(row(block, "cycle", 99).len(), printed.len(), "{wave}");
    for (name, place) in names {
        let column: Vec<String> = printed.iter().map(|line| line[*place].clone()).collect();
        assert_eq!(row(block, name, printed.len()), column, "{wave}: {name}");
    }
}

#[test]
fn the_waves_are_those_of_the_cases() {
    let section = section("Waves that are run");
    let mut shown = Vec::new();
    for part in section.split("\nW").skip(1) {
        let (number, rest) = part.split_once(',').expect("a number");
        let wave = format!("W{number}");
        let block = rest.split("```").nth(1).expect("a block");
        match wave.as_str() {
            "W5" | "W6" => check(&wave, block, CLASS),
            "W1" => check(&wave, block, RECEIVER),
            "W2" => check(&wave, block, &[&[("ping opens", 2)], RECEIVER].concat()),
            "W4" => check(
                &wave,
                block,
                &[&[("diff_p", 0), ("diff_n", 1)], PAIR].concat(),
            ),
            "W7" | "W8" => check(&wave, block, &[&[("lines", 2)], LINE].concat()),
            "W9" => check(
                &wave,
                block,
                &[&[("CLASSC_ACCUM_CNT", 6), ("ping open", 7)], LINE].concat(),
            ),
            _ => check(
                &wave,
                block,
                &[&[("alert_p", 0), ("alert_n", 1)], PAIR].concat(),
            ),
        }
        shown.push(wave);
    }
    assert_eq!(
        shown,
        ["W1", "W2", "W3", "W4", "W5", "W6", "W7", "W8", "W9"]
    );
}
