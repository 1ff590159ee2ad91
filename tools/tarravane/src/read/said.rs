//! Parts of the page in words.
use crate::names::whole_state;
use crate::runs::parts;
use crate::style::alert_name;
use crate::summary::words::ranges;
use handler::registers::{Field, Register, Setting, LETTERS};
use handler::{Content, ShownClass, LOCALS};

/// The most columns of a line.
const WIDEST: usize = 100;

/// The ticks that a class has been in its state; Idle and Terminal have no count.
pub fn ticks(class: &ShownClass) -> Option<u32> {
    (class.count > 0).then_some(class.count)
}

/// A class: its state, since when, and its accumulator.
pub fn class(k: usize, class: &ShownClass) -> String {
    let s = if class.count == 1 { "" } else { "s" };
    let since = ticks(class).map(|ticks| format!(" for {ticks} tick{s}"));
    let (letter, state) = (LETTERS[k], whole_state(class.state));
    let since = since.unwrap_or_default();
    format!("class {letter}: {state}{since}; ACCUM_CNT {}", class.accum)
}

/// What makes a local alert occur.
fn occurs(j: usize) -> &'static str {
    match j {
        0 => "a ping of an alert failed",
        1 => "a ping of a line failed",
        2 => "an alert's wires were equal",
        3 => "an answer on a line was wrong",
        5 => "a second write differed from the first",
        _ => "no tick makes it occur",
    }
}

/// Text in lines of at most so many columns, broken after commas; those after the first are indented.
fn wrapped(text: &str) -> Vec<String> {
    let (mut all, mut line) = (Vec::new(), String::from("  "));
    for piece in text.split_inclusive(',') {
        if line.len() + piece.len() > WIDEST {
            let full = std::mem::replace(&mut line, String::from("    "));
            all.push(full);
            line += piece.trim_start();
        } else {
            line += piece;
        }
    }
    all.push(line);
    all
}

/// The alerts in a line, or each in one of its own with its name in document 002.
fn alerts(alerts: &[usize], named: bool) -> Vec<String> {
    let one = |i: &usize| match alert_name(*i) {
        None => format!("  ALERT{i}"),
        Some(name) => format!("  ALERT{i} ({name})"),
    };
    match alerts {
        [] => Vec::new(),
        _ if named => alerts.iter().map(one).collect(),
        _ => wrapped(&format!("ALERT{}", ranges(alerts))),
    }
}

/// The causes that are set: the alerts', then each local alert's with what it means.
pub fn causes(content: &Content, named: bool) -> Vec<String> {
    let caused: Vec<usize> = (0..content.n)
        .filter(|i| content.is_caused(Register::Alert(Field::Cause, *i)))
        .collect();
    let mut all = alerts(&caused, named);
    let locals = (0..LOCALS).filter(|j| content.is_caused(Register::Local(Field::Cause, *j)));
    all.extend(locals.map(|j| format!("  LOC_ALERT{j}: {}", occurs(j))));
    all
}

/// Rising numbers, three neighbours or more as a run: `0, 1, 4 to 9`.
fn runs(numbers: &[usize], name: impl Fn(usize) -> String) -> String {
    let runs = parts(numbers, |a, b| a + 1 == *b);
    let words = runs.iter().flat_map(|run| match **run {
        [first, _, .., last] if run.len() > 2 => vec![format!("{} to {}", name(first), name(last))],
        _ => run.iter().map(|at| name(*at)).collect(),
    });
    words.collect::<Vec<_>>().join(", ")
}

/// Such things by their numbers, in lines: `  alerts 0 to 57`.
fn things(of: (&str, &str), numbers: Vec<usize>, name: impl Fn(usize) -> String) -> Vec<String> {
    let (one, many) = of;
    match numbers.len() {
        0 => Vec::new(),
        1 => vec![format!("  {one} {}", name(numbers[0]))],
        _ => wrapped(&format!("{many} {}", runs(&numbers, name))),
    }
}

/// What these locks lock, in lines.
pub fn locks(all: &[Register]) -> Vec<String> {
    let of = |number: fn(Register) -> Option<usize>| -> Vec<usize> {
        all.iter().copied().filter_map(number).collect()
    };
    let locals = of(|it| match it {
        Register::Local(_, j) => Some(j),
        _ => None,
    });
    let alerts = of(|it| match it {
        Register::Alert(_, i) => Some(i),
        _ => None,
    });
    let classes = of(|it| match it {
        Register::Class(k, Setting::Regwen) => Some(k),
        _ => None,
    });
    let clears = of(|it| match it {
        Register::Class(k, Setting::ClrRegwen) => Some(k),
        _ => None,
    });
    let number = |at: usize| at.to_string();
    let letter = |k: usize| LETTERS[k].to_string();
    let mut lines = Vec::new();
    if all.contains(&Register::PingRegwen) {
        lines.push("  ping timer".to_string());
    }
    lines.extend(things(("local alert", "local alerts"), locals, number));
    lines.extend(things(("alert", "alerts"), alerts, number));
    lines.extend(things(("class", "classes"), classes, letter));
    let of = ("clear of class", "clears of classes");
    lines.extend(things(of, clears, letter));
    lines
}
