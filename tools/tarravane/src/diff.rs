//! `diff`: the first tick in which the words of two traces differ, with both rows.
use crate::args::diff::Diff;
use crate::end::End;
use crate::facts::{tick::Tick, ticks::Ticks};
use crate::output::{self, Failure};
use crate::progress::Progress;
use crate::row::{header, row, wide_row};
use crate::trace::{self, title, Start, Trace};
use handler::Handler;
use std::io::{Read, Write};

/// A trace that is open, and the handler that it asks for.
struct Opened<'a> {
    name: &'a str,
    from: Trace,
    start: Start,
    handler: Handler,
}

/// Opens a trace; nothing where its N is refused, and why.
fn opened(name: &str) -> Result<Result<Opened<'_>, String>, String> {
    let (mut from, _) = trace::opened(name)?;
    let start = Start::read(&mut from, name)?;
    Ok(start.made().map(|handler| Opened {
        name,
        from,
        start,
        handler,
    }))
}

/// What comes in: the access by what its register is, and all that stands beside it.
fn same_input(a: &Tick, b: &Tick) -> bool {
    let access = |t: &Tick| match t.register() {
        Some(register) => Ok((register, std::mem::discriminant(&t.input.access))),
        None => Err(t.input.access),
    };
    let value = |t: &Tick| match t.input.access {
        handler::Access::Write(_, value) => Some(value),
        _ => None,
    };
    access(a) == access(b)
        && value(a) == value(b)
        && a.input.sample == b.input.sample
        && a.input.answers == b.input.answers
}

/// How two traces part.
enum Parted {
    /// In these ticks.
    At(Box<[Tick; 2]>),
    /// One ends after so many ticks, and the other goes on: which one ends.
    Ends(usize, u64),
    /// They have the same words.
    Nowhere,
}

/// Goes through both; `first`: the first tick in which what comes in differs.
fn parted(
    ticks: &mut [Ticks<impl Read>; 2],
    first: &mut Option<u64>,
    progress: &mut Progress,
) -> Result<Parted, String> {
    let [a, b] = ticks;
    loop {
        let (a, b) = match (a.take()?, b.take()?) {
            (Some(a), Some(b)) => (a, b),
            (None, None) => return Ok(Parted::Nowhere),
            (None, Some(b)) => return Ok(Parted::Ends(0, b.number - 1)),
            (Some(a), None) => return Ok(Parted::Ends(1, a.number - 1)),
        };
        if !same_input(&a, &b) {
            *first = first.or(Some(a.number));
        }
        if a.word != b.word {
            return Ok(Parted::At(Box::new([a, b])));
        }
        if progress.is_due(a.number) {
            progress.say(a.number);
        }
    }
}

/// The lines of a difference.
fn told(asked: &Diff, parted: &Parted, first: Option<u64>) -> Vec<String> {
    let [a, b] = &asked.traces;
    let mut all = Vec::new();
    let style = &asked.style;
    match parted {
        Parted::Nowhere => all.push("the words are the same".to_string()),
        Parted::Ends(which, tick) => {
            let (ends, goes_on) = if *which == 0 { (a, b) } else { (b, a) };
            let tick = style.tick(*tick);
            all.push(format!("{ends} ends after tick {tick}, {goes_on} goes on"));
        }
        Parted::At(ticks) => {
            let [a, b] = &**ticks;
            let tick = style.tick(a.number);
            all.push(format!(
                "words differ at tick {tick}: {:016x} and {:016x}",
                a.word.0, b.word.0
            ));
            let row = if asked.wide { wide_row } else { row };
            all.extend([header(style), row(style, a), row(style, b)]);
        }
    }
    if let Some(first) = first {
        let tick = style.tick(first);
        all.push(format!(
            "accesses, wires or entropy differ first at tick {tick}"
        ));
    }
    all
}

/// Writes what is found of two traces that replay.
fn shown(asked: &Diff, traces: [Opened; 2], out: &mut dyn Write) -> Result<End, Failure> {
    let [mut a, mut b] = traces;
    for (letter, trace) in [("A", &a), ("B", &b)] {
        let title = title(trace.start.edition, trace.handler.n);
        writeln!(out, "{letter}: {}: {title}", trace.name)?;
    }
    let mut ticks = [
        Ticks::new(&mut a.from, a.name, a.start.edition, a.handler),
        Ticks::new(&mut b.from, b.name, b.start.edition, b.handler),
    ];
    let mut progress = Progress::new("tick", None);
    let mut first = None;
    let parted = parted(&mut ticks, &mut first, &mut progress)?;
    progress.clear();
    for line in told(asked, &parted, first) {
        writeln!(out, "{line}")?;
    }
    let mut end = match parted {
        Parted::Nowhere => End::Whole,
        _ => End::Damaged,
    };
    for (letter, ticks) in [("A", &ticks[0]), ("B", &ticks[1])] {
        if let Some(cut) = ticks.cut() {
            writeln!(out, "{letter}: {cut}")?;
            end = End::Damaged;
        }
    }
    Ok(end)
}

pub fn run(asked: &Diff) -> Result<End, String> {
    let [a, b] = &asked.traces;
    let (a, b) = (opened(a)?, opened(b)?);
    output::write(None, |out| match (a, b) {
        (Ok(a), Ok(b)) => shown(asked, [a, b], out),
        (a, b) => {
            for (name, trace) in asked.traces.iter().zip([a, b]) {
                if let Err(why) = trace {
                    writeln!(out, "refused: {name}: {why}")?;
                }
            }
            Ok(End::Damaged)
        }
    })
}
