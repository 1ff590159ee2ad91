//! `dump`: the dump of a state of a trace. The library runs the trace and writes the dump.
use crate::args::dump::{Dump, Which};
use crate::end::End;
use crate::facts::{starts, tick::Tick, ticks::Ticks};
use crate::output;
use crate::progress::Progress;
use crate::say::say;
use crate::terminal;
use crate::trace::{self, Start};
use handler::{Handler, CLASSES, DUMP_MOST};
use std::io::Read;

/// Does an escalation of some class start in this tick?
fn starts(t: &Tick) -> bool {
    (0..CLASSES).any(|k| starts::start(t, k).is_some())
}

/// The state that is asked for; nothing where the trace does not come to it.
fn found(
    which: Which,
    new: Handler,
    ticks: &mut Ticks<impl Read>,
    progress: &mut Progress,
) -> Result<Option<Handler>, String> {
    let (mut state, mut there) = (new, false);
    while !there {
        let tick = match ticks.take()? {
            Some(tick) => tick,
            None => break,
        };
        state = tick.after;
        there = match which {
            Which::Last => false,
            Which::After(number) => tick.number == number,
            Which::FirstStart => starts(&tick),
        };
        if progress.is_due(tick.number) {
            progress.say(tick.number);
        }
    }
    progress.clear();
    Ok((there || which == Which::Last).then_some(state))
}

/// Why there is no such state.
fn missed(which: Which, ticks: u64) -> String {
    let s = if ticks == 1 { "" } else { "s" };
    let has = format!("the trace has only {ticks} tick{s}");
    match which {
        Which::After(number) => format!("--at {number}: {has}; no dump is written"),
        _ => "--at-start: no escalation starts in this trace; no dump is written".to_string(),
    }
}

/// The dump, as the library writes it.
fn bytes(h: Handler) -> Result<Vec<u8>, String> {
    let mut out = vec![0; DUMP_MOST];
    let length = h
        .dump(&mut out)
        .bytes()
        .map_err(|refusal| format!("the library refused the state by {}", refusal.0))?;
    out.truncate(length);
    Ok(out)
}

/// Writes the dump of the state that was found. A trace that was read to a cut end is a damaged one.
fn written(asked: &Dump, state: Option<Handler>, ticks: &Ticks<impl Read>) -> Result<End, String> {
    let cut = ticks.cut();
    let end = match state {
        Some(state) => {
            let bytes = bytes(state)?;
            output::write(asked.to.as_deref(), |out| {
                out.write_all(&bytes)?;
                Ok(match cut {
                    None => End::Whole,
                    Some(_) => End::Damaged,
                })
            })?
        }
        None => {
            say(&missed(asked.which, ticks.number()));
            End::Damaged
        }
    };
    if let Some(cut) = cut {
        say(&cut);
    }
    Ok(end)
}

pub fn run(asked: &Dump) -> Result<End, String> {
    if asked.to.is_none() && terminal::is_output() {
        return Err("a dump is not for a terminal: name a file by -o FILE".to_string());
    }
    let (mut from, bytes) = trace::opened(&asked.trace)?;
    let start = Start::read(&mut from, &asked.trace)?;
    let handler = match start.made() {
        Ok(handler) => handler,
        Err(why) => {
            say(&format!("refused: {why}; no dump is written"));
            return Ok(End::Damaged);
        }
    };
    let mut progress = Progress::new("tick", bytes.map(|bytes| start.records(bytes)));
    let mut ticks = Ticks::new(&mut from, &asked.trace, start.edition, handler);
    let state = found(asked.which, handler, &mut ticks, &mut progress)?;
    written(asked, state, &ticks)
}
