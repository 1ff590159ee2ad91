//! The summary of a trace, in lines or as one object.
use super::{clock, ended, how};
use crate::args::explain::Explain;
use crate::end::End;
use crate::facts::ticks::Ticks;
use crate::json::{self, text};
use crate::output::Failure;
use crate::progress::Progress;
use crate::range::Range;
use crate::summary::{Summary, Telling};
use std::io::{Read, Write};

/// The ticks of a summary: how many the trace has, or which of them it is of.
fn of_ticks(Range { from, to }: Range, ticks: u64) -> String {
    match (from, to) {
        (1, u64::MAX) => format!("ticks: {ticks}"),
        _ if from > ticks => "ticks: none".to_string(),
        _ => format!("ticks: {from} to {ticks}"),
    }
}

/// The summary of the ticks that are asked for; true where the trace goes on after them.
fn summed(
    asked: &Explain,
    ticks: &mut Ticks<impl Read>,
    progress: &mut Progress,
) -> Result<(Summary, bool), Failure> {
    let mut summary = Summary::new(ticks.handler());
    let reached = ticks.walk(asked.range.to, progress, |tick| {
        match tick.number < asked.range.from {
            true => summary.pass(tick),
            false => summary.add(tick),
        }
        Ok::<(), Failure>(())
    })?;
    if !reached {
        asked.range.tell_missed(ticks.number());
    }
    Ok((summary, reached))
}

/// The summary in lines.
pub fn lines(
    asked: &Explain,
    title: &str,
    ticks: &mut Ticks<impl Read>,
    out: &mut dyn Write,
    progress: &mut Progress,
) -> Result<End, Failure> {
    let (summary, reached) = summed(asked, ticks, progress)?;
    let ticks_of = of_ticks(asked.range, ticks.number());
    writeln!(out, "{title}; {ticks_of}{}", clock(asked))?;
    let told = Telling {
        style: &asked.style,
        stopped: reached.then(|| ticks.number()),
    };
    for line in summary.lines(&told) {
        writeln!(out, "{line}")?;
    }
    ended(out, ticks)
}

/// The summary as one object.
pub fn object(
    asked: &Explain,
    about: Vec<(&str, String)>,
    ticks: &mut Ticks<impl Read>,
    out: &mut dyn Write,
    progress: &mut Progress,
) -> Result<End, Failure> {
    let (summary, reached) = summed(asked, ticks, progress)?;
    let (how, end) = how(ticks, reached);
    let of = vec![
        ("from", asked.range.from.to_string()),
        ("to", ticks.number().to_string()),
        ("end", text(how)),
    ];
    let head = vec![("kind", text("summary"))];
    let all = [head, about, of, summary.json()].concat();
    writeln!(out, "{}", json::object(&all))?;
    Ok(end)
}
