//! The page for a technician.
use super::{locks, said, Judged, Verdict};
use crate::names;
use handler::{Content, DUMP_MOST};

/// What no dump has, whatever the state held.
const NOT_SHOWN: [&str; 3] = [
    "not in a dump: EN, CLASS, CTRL, thresholds, timeouts and lengths of phases; interrupts; of the ping",
    "  timer all but its lock and an open write of PING_TIMEOUT_CYC; where receivers and senders stand;",
    "  when it was written, and of which station",
];

/// A title with lines below it; without any, both in one line.
fn part(title: &str, lines: Vec<String>, none: &str) -> Vec<String> {
    match lines.is_empty() {
        true => vec![format!("{title}: {none}")],
        false => [vec![format!("{title}:")], lines].concat(),
    }
}

/// The first of two equal writes, of which the second did not come.
fn stages(content: &Content) -> Vec<String> {
    let one = |(register, value)| format!("  {register} {}", names::value(Some(register), value));
    content.staged().into_iter().map(one).collect()
}

fn whole(content: &Content, bytes: usize, named: bool) -> Vec<String> {
    let s = if content.n == 1 { "" } else { "s" };
    let mut all = vec![format!("dump of {} alert{s}: {bytes} bytes", content.n)];
    let classes = content.classes.iter().enumerate();
    all.extend(classes.map(|(k, class)| said::class(k, class)));
    all.extend(part("causes", said::causes(content, named), "none"));
    for (title, locked) in [("locked", true), ("not locked", false)] {
        let lines = said::locks(&locks::of(content, locked));
        all.extend(part(title, lines, "nothing"));
    }
    all.extend(part("writes half done", stages(content), "none"));
    all.extend(NOT_SHOWN.map(str::to_string));
    all
}

fn bytes(number: usize) -> String {
    let s = if number == 1 { "" } else { "s" };
    format!("{number} byte{s}")
}

fn cut(length: usize, missing: usize) -> String {
    let start = match length {
        0 => "no bytes".to_string(),
        _ => format!("the first {} of a dump", bytes(length)),
    };
    let verb = if missing == 1 { "is" } else { "are" };
    format!(
        "cut: {start}; at least {} more {verb} missing, and nothing is shown of a part",
        bytes(missing)
    )
}

fn damaged(read: &[u8]) -> String {
    let what = match read.len() {
        length if length > DUMP_MOST => format!("more than {DUMP_MOST} bytes"),
        length => bytes(length),
    };
    let why = match read.starts_with(b"TDMP") {
        true => "",
        false => "; a dump begins with TDMP",
    };
    format!("damaged: {what}, no dump and no start of one{why}; nothing of it can be trusted")
}

/// `named`: with the alerts' names.
pub(super) fn page(judged: &Judged, named: bool) -> String {
    let length = judged.bytes.len();
    let lines = match &judged.verdict {
        Verdict::Whole(content) => whole(content, length, named),
        Verdict::Cut(missing) => vec![cut(length, *missing)],
        Verdict::Damaged => vec![damaged(&judged.bytes)],
    };
    lines.iter().map(|line| format!("{line}\n")).collect()
}
