//! `calm`: a trace, and then so many ticks without access on steady wires, in one go: which line goes on or off when, and what
//! the classes then are. The library runs both.
mod ran;
mod said;

use crate::args::calm::Calm;
use crate::end::End;
use crate::facts::wires::of_alerts;
use crate::output::{self, Failure};
use crate::progress::Progress;
use crate::text::wires;
use crate::trace::{self, cut, title, Start};
use handler::{Change, Handler, Refusal, Ticked, Wires, CHANGES, CLASSES};
use ran::Ran;
use std::io::{Read, Write};

/// The most columns of a row.
const WIDEST: usize = 120;

/// What calm ticks give, and the changes that they list.
fn calmed(handler: Handler, wires: Wires, ticks: u32) -> Result<(Ticked, Vec<Change>), Refusal> {
    let mut list = [Change::default(); CHANGES];
    let given = handler.calm(wires, ticks, &mut list);
    let count = given.answer.value()?;
    let ticked = Ticked {
        handler: given.handler,
        answer: given.answer,
        output: given.output,
    };
    Ok((ticked, list[..count as usize].to_vec()))
}

/// What the calm ticks are.
fn heading(asked: &Calm, ran: &Ran, wires: Wires) -> String {
    let of = match (asked.wires, ran.ticks) {
        (Some(_), _) => "as given".to_string(),
        (None, 0) => "before tick 1".to_string(),
        (None, tick) => format!("of tick {tick}"),
    };
    let first = match asked.ticks {
        0 => String::new(),
        _ => format!(", the first is trace tick {}", ran.ticks + 1),
    };
    let start = format!("calm ticks: {}{first}; wires {of}:", asked.ticks);
    let shown = of_alerts(&ran.handler, wires);
    match wires::words(shown).strip_prefix(" wires") {
        None => format!("{start} all at rest"),
        Some(words) if start.len() + words.len() <= WIDEST => format!("{start}{words}"),
        Some(_) => format!("{start} {} alerts off rest", wires::count(shown)),
    }
}

/// The wires of the calm ticks. Those that are given are of alerts that the trace has.
fn steady(asked: &Calm, ran: &Ran) -> Result<Wires, String> {
    let n = ran.handler.n;
    let given = asked.wires.unwrap_or(Wires::REST);
    match (asked.wires, wires::first_off_rest(given, n)) {
        (None, _) => Ok(ran.wires),
        (_, None) => Ok(given),
        (_, Some(i)) => Err(format!(
            "--wires names alert {i}: the trace has {n} alerts, 0 to {}",
            n - 1
        )),
    }
}

/// The calm ticks, and what they leave.
fn rows(asked: &Calm, ran: &Ran, wires: Wires) -> Result<Vec<String>, Refusal> {
    let (before, _) = calmed(ran.handler, wires, 0)?;
    let (after, changes) = calmed(ran.handler, wires, asked.ticks)?;
    let mut all = vec![heading(asked, ran, wires)];
    all.push(format!("before: {}", said::outputs(&before.output)));
    if changes.is_empty() {
        all.push("no line goes on or off".to_string());
    }
    let mut lines = before.output.lines;
    for change in changes {
        let (tick, is) = (change.tick(), change.lines());
        let (last, _) = calmed(ran.handler, wires, tick - 1)?;
        let (now, _) = calmed(ran.handler, wires, tick)?;
        let moved = said::moved(&last.handler, &now.handler);
        let of_trace = ran.ticks + u64::from(tick);
        let changed = said::lines(lines, is);
        all.push(format!(
            "tick {tick}, trace tick {of_trace}: {changed}; {moved}"
        ));
        lines = is;
    }
    all.push(format!("after: {}", said::outputs(&after.output)));
    let class = |k: usize| said::class(k, &after.handler.classes[k]);
    all.extend((0..CLASSES).map(class));
    Ok(all)
}

/// All of it; bytes that are left over make the trace a cut one.
fn shown(
    start: Start,
    asked: &Calm,
    ran: &Ran,
    wires: Wires,
    out: &mut dyn Write,
) -> Result<End, Failure> {
    let title = title(start.edition, ran.handler.n);
    writeln!(out, "{title}; ticks: {}", ran.ticks)?;
    let mut end = End::Whole;
    let rows = rows(asked, ran, wires).unwrap_or_else(|refusal| {
        end = End::Damaged;
        vec![said::refused(refusal)]
    });
    for row in rows {
        writeln!(out, "{row}")?;
    }
    if ran.left > 0 {
        writeln!(out, "cut: {}", cut(ran.left, ran.ticks))?;
        end = End::Damaged;
    }
    Ok(end)
}

/// The trace, run, and the calm after it.
fn run_from(
    from: &mut impl Read,
    start: Start,
    asked: &Calm,
    progress: &mut Progress,
) -> Result<End, String> {
    let handler = match start.made() {
        Ok(handler) => handler,
        Err(why) => {
            return output::write(None, |out| {
                writeln!(out, "refused: {why}")?;
                Ok(End::Damaged)
            })
        }
    };
    let ran = ran::run(
        from,
        &asked.trace,
        start.edition,
        handler,
        asked.to,
        progress,
    )?;
    let wires = steady(asked, &ran)?;
    output::write(None, |out| shown(start, asked, &ran, wires, out))
}

pub fn run(asked: &Calm) -> Result<End, String> {
    let (mut from, bytes) = trace::opened(&asked.trace)?;
    let start = Start::read(&mut from, &asked.trace)?;
    let mut progress = Progress::new("tick", bytes.map(|bytes| start.records(bytes)));
    run_from(&mut from, start, asked, &mut progress)
}
