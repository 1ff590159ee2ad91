//! `record --back`: a trace to the text that gives it. Every trace has one.
use crate::args::record::Record;
use crate::end::End;
use crate::output::{self, Failure};
use crate::progress::Progress;
use crate::say::say;
use crate::source::filled;
use crate::terminal;
use crate::text::{alerts, edition, line};
use crate::trace::record::{input, written};
use crate::trace::{self, cut, Start};
use handler::registers::Naming;
use handler::Edition;
use std::io::{Read, Write};

/// The line of a record: of its input where that is written as these bytes, as it is for every well-formed record, else of
/// its bytes.
fn words(edition: Edition, bytes: &[u8]) -> String {
    let input = input(edition, bytes);
    match written(edition, &[input]) {
        Ok(again) if again == bytes => line::words(Naming::Ours, edition, &input),
        _ => line::raw_words(bytes),
    }
}

/// Writes a line for each record, and one for bytes that are left over.
fn records(
    edition: Edition,
    out: &mut dyn Write,
    from: &mut impl Read,
    name: &str,
    progress: &mut Progress,
) -> Result<End, Failure> {
    let mut bytes = vec![0; edition.bytes()];
    for number in 1.. {
        let have = filled(from, &mut bytes, name)?;
        if have == 0 {
            break;
        }
        if have < bytes.len() {
            writeln!(out, "{}", line::cut_words(&bytes[..have]))?;
            progress.clear();
            say(&format!("cut: {}", cut(have, number - 1)));
            return Ok(End::Damaged);
        }
        writeln!(out, "{}", words(edition, &bytes))?;
        if progress.is_due(number) {
            progress.say(number);
        }
    }
    Ok(End::Whole)
}

/// The lines before the ticks. The edition is named also where it is the newest, so that the text gives the same bytes when a
/// newer one has come; a trace without a byte has no line.
fn head(start: Start) -> Vec<String> {
    if start == Start::EMPTY {
        return Vec::new();
    }
    let mut lines = vec![edition::words(start.edition)];
    lines.extend(start.n.map(alerts::words));
    lines
}

/// Writes the text; what makes its trace a damaged one is said beside it.
fn text(
    start: Start,
    out: &mut dyn Write,
    from: &mut impl Read,
    name: &str,
    progress: &mut Progress,
) -> Result<End, Failure> {
    for line in head(start) {
        writeln!(out, "{line}")?;
    }
    let refused = start.made().err();
    if let Some(why) = &refused {
        say(&format!("refused: {why}"));
    }
    let end = records(start.edition, out, from, name, progress)?;
    Ok(if refused.is_some() { End::Damaged } else { end })
}

pub fn run(asked: &Record) -> Result<End, String> {
    let (mut from, bytes) = trace::opened(&asked.from)?;
    let start = Start::read(&mut from, &asked.from)?;
    let seen = asked.to.is_none() && terminal::is_output();
    let mut progress = match seen {
        true => Progress::silent(),
        false => Progress::new("record", bytes.map(|bytes| start.records(bytes))),
    };
    output::write(asked.to.as_deref(), |out| {
        text(start, out, &mut from, &asked.from, &mut progress)
    })
}
