//! A Value Change Dump, which GTKWave and Surfer open. Tick t is the time t; at 0 stands the new handler.
mod again;
mod alerts;
mod dump;
mod head;
mod id;
mod moved;
mod signal;
mod value;
mod view;

use super::made::made_by;
use super::opened::{shown_name, Opened};
use crate::facts::{tick::Tick, ticks::Ticks};
use crate::output::Failure;
use crate::progress::Progress;
use crate::trace::title;
use again::{changed, Again};
use dump::Dump;
use handler::Handler;
use head::Head;
use moved::Moved;
use signal::scopes;
use std::io::{Read, Write};
use std::path::Path;
pub use view::MARK;

/// What was written: what makes the trace a damaged one, and a view for GTKWave.
pub struct Written {
    pub damage: Option<String>,
    pub view: String,
}

/// What a first look at a trace finds.
struct Looked {
    moved: Moved,
    ticks: u64,
    cut: Option<String>,
}

/// The head of a trace's dump, with these comments after its name.
fn head(trace: &Opened, more: Vec<String>) -> Head {
    let name = format!("trace: {}", shown_name(trace.name));
    Head {
        comments: [vec![name], more].concat(),
        made: made_by(trace.start.edition),
    }
}

/// A trace that replays.
struct Played<'a> {
    trace: &'a Opened<'a>,
    handler: Handler,
}

impl Played<'_> {
    fn ticks<'a, R: Read>(&'a self, from: &'a mut R) -> Ticks<'a, R> {
        Ticks::new(
            from,
            self.trace.name,
            self.trace.start.edition,
            self.handler,
        )
    }

    /// Goes through the trace once, to find the alerts that move.
    fn look(&self, from: &mut impl Read) -> Result<Looked, Failure> {
        let mut moved = Moved::default();
        let mut ticks = self.ticks(from);
        let mut progress = Progress::new("looking at tick", self.trace.records());
        ticks.walk(u64::MAX, &mut progress, |tick| {
            moved.add(tick);
            Ok::<(), Failure>(())
        })?;
        Ok(Looked {
            moved,
            ticks: ticks.number(),
            cut: ticks.cut(),
        })
    }

    fn head(&self) -> Head {
        let title = title(self.trace.start.edition, self.handler.n);
        let time = "tick t is the time t; 0: a new handler, all wires at rest".to_string();
        head(self.trace, vec![title, time])
    }

    /// Writes the dump of what was looked at; of all ticks and alerts where nothing was.
    fn dump(
        &self,
        from: &mut impl Read,
        looked: Option<&Looked>,
        to: &str,
        out: &mut dyn Write,
    ) -> Result<Written, Failure> {
        let edition = self.trace.start.edition;
        let all = Moved::all(self.handler.n, edition);
        let moved = looked.map_or(&all, |looked| &looked.moved);
        let zero = Tick::before_first(edition, self.handler);
        let scopes = scopes(moved);
        let mut dump = Dump::begin(out, &self.head(), &scopes, &zero)?;
        let mut ticks = self.ticks(from);
        let mut progress = Progress::new("tick", self.trace.records());
        let last = looked.map_or(u64::MAX, |looked| looked.ticks);
        let reached = ticks.walk(last, &mut progress, |tick| {
            dump.add(tick).map_err(Failure::Write)
        })?;
        let cut = match looked {
            Some(_) if !reached => return Err(changed(self.trace.name)),
            Some(looked) => looked.cut.clone(),
            None => ticks.cut(),
        };
        dump.end(ticks.number(), cut.as_deref().unwrap_or("whole"))?;
        Ok(Written {
            damage: cut,
            view: view::text(&shown_name(to), &scopes, ticks.number()),
        })
    }
}

/// Writes the dump to a file of this name; `all`: also of alerts that never move.
pub fn write(
    trace: &Opened,
    from: &mut impl Read,
    all: bool,
    to: &str,
    out: &mut dyn Write,
) -> Result<Written, Failure> {
    let handler = match trace.start.made() {
        Ok(handler) => handler,
        Err(why) => {
            let why = format!("refused: {why}");
            dump::refused(out, &head(trace, vec![]), &why)?;
            return Ok(Written {
                damage: Some(why),
                view: view::text(&shown_name(to), &[], 0),
            });
        }
    };
    let played = Played { trace, handler };
    if all {
        return played.dump(from, None, to, out);
    }
    let again = match trace.bytes {
        Some(_) => Again::File(trace.name),
        None => Again::kept(from, trace.name, Path::new(to))?,
    };
    let mut records = again.records(trace.start)?;
    let looked = played.look(&mut records)?;
    records = again.records(trace.start)?;
    played.dump(&mut records, Some(&looked), to, out)
}

#[cfg(test)]
mod tests;
