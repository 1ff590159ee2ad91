//! A picture of a trace, which prints on one page.
mod access;
mod alerts;
mod axis;
mod caption;
mod cell;
mod folds;
mod held;
mod lanes;
mod layout;
mod legend;
mod marks;
mod page;
mod pairs;
mod picture;
mod style;
mod timer;
mod weight;
mod xml;

use super::made::made_by;
use super::opened::{shown_name, Opened};
use crate::facts::{tick::Tick, ticks::Ticks};
use crate::output::Failure;
use crate::progress::Progress;
use crate::range::Range;
use crate::style::Style;
use crate::summary::{Summary, Telling};
use crate::trace::title;
use alerts::Alerts;
use cell::Cell;
use folds::Folds;
use handler::Handler;
use picture::{draw, draw_refused, Drawn};
use std::io::{Read, Write};

/// Goes through the ticks up to the last one that is shown.
fn drawn(
    trace: &Opened,
    handler: Handler,
    from: &mut impl Read,
    range: Range,
    style: &Style,
) -> Result<Drawn, Failure> {
    let edition = trace.start.edition;
    let mut ticks = Ticks::new(from, trace.name, edition, handler);
    let mut progress = Progress::new("tick", trace.records());
    let (mut folds, mut summary) = (Folds::default(), Summary::new(&handler));
    let mut last = Alerts::new(&Tick::before_first(edition, handler));
    let reached = ticks.walk(range.to, &mut progress, |tick| {
        summary.add(tick);
        let cell = Cell::new(tick, &last);
        last = cell.alerts.clone();
        if tick.number >= range.from {
            folds.push(cell);
        }
        Ok::<(), Failure>(())
    })?;
    if !reached {
        range.tell_missed(ticks.number());
    }
    let told = Telling {
        style,
        stopped: reached.then(|| ticks.number()),
    };
    Ok(Drawn {
        name: shown_name(trace.name),
        title: title(edition, handler.n),
        made: made_by(edition),
        cells: folds.fitted(),
        told: summary.short_lines(&told),
        ticks: ticks.number(),
        cut: ticks.cut(),
        clock: style.clock.clone(),
    })
}

/// Writes the picture of these ticks. Tells what makes the trace a damaged one.
pub fn write(
    trace: &Opened,
    from: &mut impl Read,
    range: Range,
    style: &Style,
    out: &mut dyn Write,
) -> Result<Option<String>, Failure> {
    let (picture, damage) = match trace.start.made() {
        Ok(handler) => {
            let drawn = drawn(trace, handler, from, range, style)?;
            (draw(&drawn), drawn.cut)
        }
        Err(why) => {
            let why = format!("refused: {why}");
            let made = made_by(trace.start.edition);
            let picture = draw_refused(&shown_name(trace.name), &why, &made);
            (picture, Some(why))
        }
    };
    out.write_all(picture.as_bytes())?;
    Ok(damage)
}

#[cfg(test)]
mod tests;
