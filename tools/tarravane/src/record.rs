//! `record`: a text to a trace.
pub mod ends;
mod grown;
mod run;
mod warnings;
mod watch;

use crate::args::record::Record;
use crate::end::End;
use crate::output;
use crate::progress::Progress;
use crate::source::opened;
use crate::spool::Spool;
use crate::terminal;
use crate::text::{alerts, edition, line, lines::Lines, repeat};
use grown::Grown;
use handler::Edition;
use std::io::BufRead;
use warnings::Warnings;

/// The first lines that say something give edition and N, each other one bytes or a tick.
fn add(line: &str, number: u64, trace: &mut Grown, warnings: &mut Warnings) -> Result<(), String> {
    let at = |problem| format!("line {number}: {problem}");
    let edition = trace.edition().unwrap_or(Edition::NEWEST);
    match trace.n() {
        None if trace.edition().is_none() && edition::is_edition(line) => {
            trace.begin(edition::parse(line).map_err(at)?, None);
        }
        None => trace.begin(edition, Some(alerts::parse(edition, line).map_err(at)?)),
        Some(n) => {
            let (times, line) = repeat::parse(line).map_err(at)?;
            let given = line::parse(edition, line).map_err(at)?;
            warnings.look(number, edition, n, &given);
            trace.add(number, times, &given, warnings)?;
        }
    }
    Ok(())
}

/// Adds what the lines give, up to the first bad one.
fn read(
    lines: &mut Lines<impl BufRead>,
    trace: &mut Grown,
    warnings: &mut Warnings,
    progress: &mut Progress,
) -> Result<(), String> {
    loop {
        let number = lines.number() + 1;
        let line = match lines.take()? {
            Some(line) => line,
            None => return Ok(()),
        };
        if progress.is_due(number) {
            progress.say(number);
        }
        if !line::is_blank(line) {
            add(line, number, trace, warnings)?;
        }
    }
}

/// The trace that a text gives.
fn grown(from: impl BufRead, asked: &Record, warnings: &mut Warnings) -> Result<Grown, String> {
    let mut trace = Grown::new(Spool::new(asked.to.as_deref()));
    let mut progress = Progress::new("line", None);
    let mut lines = Lines::new(from, &asked.from);
    let done = read(&mut lines, &mut trace, warnings, &mut progress);
    // A line that the writer refuses may stand before the one that stopped the reading.
    trace.write(warnings)?;
    done?;
    Ok(trace)
}

/// A trace that is written as the text has it may still be one that no replay reads to its end.
fn judged(trace: &Grown, warnings: &mut Warnings) -> End {
    let refused = trace.start().made().err();
    let damaged = refused.is_some() || trace.is_cut();
    if let Some(why) = refused {
        warnings.add(format!("refused: {why}"));
    }
    if trace.is_cut() {
        warnings.add("cut: the text ends by cut, and so does the trace".to_string());
    }
    if damaged {
        End::Damaged
    } else {
        End::Whole
    }
}

/// The first bytes of a file that are looked at.
const LOOKED_AT: usize = 512;

/// Do these bytes begin as a text does: by a comment, or by a line that gives edition or N?
fn begins_as_text(start: &[u8]) -> bool {
    let start = start.strip_prefix(b"\xEF\xBB\xBF").unwrap_or(start);
    let blank = |byte: &&u8| matches!(**byte, b' ' | b'\t' | b'\r' | b'\n');
    let said = &start[start.iter().take_while(blank).count()..];
    [&b"#"[..], b"alerts", b"edition"]
        .iter()
        .any(|first| said.starts_with(first))
}

/// A byte of 0, which every record has, tells a trace from a text; what else is wrong with a text, its lines tell.
fn check_text(from: &mut impl BufRead, name: &str) -> Result<(), String> {
    // A failed read is told where the lines are read.
    let start = from.fill_buf().unwrap_or_default();
    let has_zero = start.iter().take(LOOKED_AT).any(|byte| *byte == 0);
    match has_zero && !begins_as_text(start) {
        false => Ok(()),
        true => Err(format!(
            "{name}: this is no text: ./tarravane record --back gives the text of a trace"
        )),
    }
}

pub fn run(asked: &Record) -> Result<End, String> {
    if asked.to.is_none() && terminal::is_output() {
        return Err("a trace is not for a terminal: name a file by -o FILE".to_string());
    }
    let (mut from, _) = opened(&asked.from)?;
    check_text(&mut from, &asked.from)?;
    let mut warnings = Warnings::default();
    let trace = grown(from, asked, &mut warnings)?;
    let end = judged(&trace, &mut warnings);
    let spool = trace.end(&mut warnings);
    output::write(asked.to.as_deref(), |out| {
        spool.copy(out)?;
        Ok(end)
    })?;
    warnings.say();
    Ok(end)
}
