//! `explain`: a row or a JSON object for each tick of a trace, or a summary of them.
mod json;
mod summed;

use crate::args::explain::{Explain, Rows, Shown};
use crate::end::End;
use crate::facts::{changes::changes, tick::Tick, ticks::Ticks};
use crate::json::{list, object, text};
use crate::output::{self, Failure};
use crate::progress::Progress;
use crate::row::{header, row, wide_row};
use crate::trace::{self, title, Start};
use std::io::{Read, Write};

/// The end of the trace: bytes that are left over make it a cut one.
fn ended(out: &mut dyn Write, ticks: &Ticks<impl Read>) -> Result<End, Failure> {
    match ticks.cut() {
        None => Ok(End::Whole),
        Some(cut) => {
            writeln!(out, "{cut}")?;
            Ok(End::Damaged)
        }
    }
}

/// What the times of ticks go by, where they are given.
fn clock(asked: &Explain) -> String {
    let clock = asked.style.clock.as_ref();
    let words = clock.map(|clock| format!("; {}", clock.words()));
    words.unwrap_or_default()
}

/// How the reading ended, for programs: at the end of a whole or a cut trace, or at `--to`.
fn how(ticks: &Ticks<impl Read>, reached: bool) -> (&'static str, End) {
    match ticks.cut() {
        Some(_) => ("cut", End::Damaged),
        None if reached => ("stopped", End::Whole),
        None => ("whole", End::Whole),
    }
}

/// What is said of the trace before its ticks, for programs.
fn about(asked: &Explain, start: Start, alerts: usize) -> Vec<(&'static str, String)> {
    let mut all = vec![
        ("alerts", alerts.to_string()),
        ("record_bytes", start.edition.bytes().to_string()),
        ("edition", text(start.edition.name())),
    ];
    let clock = asked.style.clock.as_ref();
    all.extend(clock.map(|clock| ("start", text(clock.stamp(1)))));
    all.extend(clock.map(|clock| ("tick_seconds", text(clock.seconds()))));
    if asked.style.names {
        let names = (0..alerts).filter_map(|i| asked.style.alert_name(i));
        all.push(("names", list(names.map(text))));
    }
    all
}

/// Is there a row for this tick?
fn wanted(asked: &Explain, rows: Rows, tick: &Tick) -> bool {
    tick.number >= asked.range.from && (!rows.only_changes || changes(tick))
}

/// Writes what is shown of each tick that is wanted; true where the trace goes on after them.
fn each(
    asked: &Explain,
    shown: Rows,
    ticks: &mut Ticks<impl Read>,
    out: &mut dyn Write,
    progress: &mut Progress,
) -> Result<bool, Failure> {
    while ticks.number() < asked.range.to {
        let tick = match ticks.take()? {
            Some(tick) => tick,
            None => {
                progress.clear();
                asked.range.tell_missed(ticks.number());
                return Ok(false);
            }
        };
        if wanted(asked, shown, &tick) {
            progress.clear();
            let line = match (asked.json, shown.wide) {
                (true, _) => json::tick(&asked.style, &tick),
                (false, true) => wide_row(&asked.style, &tick),
                (false, false) => row(&asked.style, &tick),
            };
            writeln!(out, "{line}")?;
        }
        if progress.is_due(tick.number) {
            out.flush()?;
            progress.say(tick.number);
        }
    }
    Ok(true)
}

fn rows(
    asked: &Explain,
    shown: Rows,
    ticks: &mut Ticks<impl Read>,
    out: &mut dyn Write,
    progress: &mut Progress,
) -> Result<End, Failure> {
    writeln!(out, "{}", header(&asked.style))?;
    match each(asked, shown, ticks, out, progress)? {
        true => Ok(End::Whole),
        false => ended(out, ticks),
    }
}

/// The same as objects: one before the ticks and one after them.
fn objects(
    asked: &Explain,
    shown: Rows,
    about: Vec<(&str, String)>,
    ticks: &mut Ticks<impl Read>,
    out: &mut dyn Write,
    progress: &mut Progress,
) -> Result<End, Failure> {
    let head = [vec![("kind", text("trace"))], about].concat();
    writeln!(out, "{}", object(&head))?;
    let reached = each(asked, shown, ticks, out, progress)?;
    let (how, end) = how(ticks, reached);
    let last = [
        ("kind", text("end")),
        ("end", text(how)),
        ("ticks", ticks.number().to_string()),
    ];
    writeln!(out, "{}", object(&last))?;
    Ok(end)
}

fn shown(
    asked: &Explain,
    start: Start,
    from: &mut impl Read,
    out: &mut dyn Write,
    progress: &mut Progress,
) -> Result<End, Failure> {
    let handler = match start.made() {
        Ok(handler) => handler,
        Err(why) => {
            let refused = [("kind", text("refused")), ("why", text(&why))];
            match asked.json {
                true => writeln!(out, "{}", object(&refused))?,
                false => writeln!(out, "refused: {why}")?,
            }
            return Ok(End::Damaged);
        }
    };
    let (title, about) = (
        title(start.edition, handler.n),
        about(asked, start, handler.n),
    );
    let mut ticks = Ticks::new(from, &asked.trace, start.edition, handler);
    match (asked.shown, asked.json) {
        (Shown::Rows(shown), true) => objects(asked, shown, about, &mut ticks, out, progress),
        (Shown::Rows(shown), false) => {
            let clock = clock(asked);
            writeln!(
                out,
                "{title}; a class: its state, then ESC_CNT/ACCUM_CNT{clock}"
            )?;
            rows(asked, shown, &mut ticks, out, progress)
        }
        (Shown::Summary, true) => summed::object(asked, about, &mut ticks, out, progress),
        (Shown::Summary, false) => summed::lines(asked, &title, &mut ticks, out, progress),
    }
}

pub fn run(asked: &Explain) -> Result<End, String> {
    let (mut from, bytes) = trace::opened(&asked.trace)?;
    let start = Start::read(&mut from, &asked.trace)?;
    let mut progress = Progress::new("tick", bytes.map(|bytes| start.records(bytes)));
    output::write(None, |out| {
        shown(asked, start, &mut from, out, &mut progress)
    })
}
