//! `wave`: a trace as a dump for wave viewers, or as a picture.
mod beside;
mod made;
mod opened;
mod svg;
mod vcd;

use crate::args::wave::{Form, Wave};
use crate::end::End;
use crate::output;
use crate::say::say;
use crate::trace::{self, Start};
use opened::Opened;

pub fn run(asked: &Wave) -> Result<End, String> {
    let (mut from, bytes) = trace::opened(&asked.trace)?;
    let start = Start::read(&mut from, &asked.trace)?;
    let name = &asked.trace;
    let trace = Opened { name, start, bytes };
    let (mut damage, mut view) = (None, None);
    let end = output::write(Some(&asked.to), |out| {
        damage = match asked.form {
            Form::Dump { all } => {
                let written = vcd::write(&trace, &mut from, all, &asked.to, out)?;
                view = Some(written.view);
                written.damage
            }
            Form::Picture(range) => svg::write(&trace, &mut from, range, &asked.style, out)?,
        };
        Ok(match damage {
            None => End::Whole,
            Some(_) => End::Damaged,
        })
    })?;
    if let Some(view) = view {
        beside::write(&asked.to, &view)?;
    }
    // The file is there, whatever is said of its trace.
    if let Some(why) = damage {
        say(&why);
    }
    Ok(end)
}
