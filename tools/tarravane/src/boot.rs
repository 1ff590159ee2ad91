//! `boot`: a new handler, its boot policy installed by the library, and what the state that came back holds.
mod said;
mod table;

use crate::args::boot::Boot;
use crate::end::End;
use crate::output::{self, Failure};
use crate::say::say;
use crate::trace::record::written;
use crate::trace::Start;
use handler::boot::{entries, inputs};
use handler::{Edition, Handler, Input, Installed};
use std::io::Write;

/// The whole boot of a new handler as a trace, by the state after it.
fn trace(after: &Handler) -> Result<Vec<u8>, String> {
    let ticks: Vec<Input> = entries(after).into_iter().flat_map(inputs).collect();
    let edition = Edition::NEWEST;
    let n = u8::try_from(after.n).ok();
    let records = written(edition, &ticks)
        .map_err(|refusal| format!("the library refused the ticks by {}", refusal.0))?;
    Ok([Start { edition, n }.bytes(), records].concat())
}

/// Writes the trace, of a boot that came to its end.
fn save(installed: &Installed, to: &str) -> Result<(), String> {
    if !installed.is_whole() {
        say("no trace is written, as the boot did not come to its end");
        return Ok(());
    }
    let bytes = trace(&installed.handler)?;
    let fill = |out: &mut dyn Write| {
        out.write_all(&bytes)?;
        Ok::<End, Failure>(End::Whole)
    };
    output::write(Some(to), fill).map(|_| ())
}

fn shown(asked: &Boot, installed: &Installed, out: &mut dyn Write) -> Result<End, Failure> {
    let name = asked.lifecycle.name();
    writeln!(out, "lifecycle {name}; alerts: {}", installed.handler.n)?;
    // On 7 and 13 nothing was installed, and there may be fewer alerts than rows.
    if installed.is_whole() || installed.register != 0 {
        for line in table::lines(&installed.handler) {
            writeln!(out, "{line}")?;
        }
    }
    writeln!(out, "{}", said::end(installed))?;
    Ok(match installed.is_whole() {
        true => End::Whole,
        false => End::Damaged,
    })
}

pub fn run(asked: &Boot) -> Result<End, String> {
    let (new, _) = Handler::new(asked.alerts);
    let installed = new.install(asked.lifecycle);
    if let Some(to) = &asked.trace {
        save(&installed, to)?;
    }
    output::write(None, |out| shown(asked, &installed, out))
}

#[cfg(test)]
mod tests;
