//! The trace before the calm: its records run in the library, many at once.
use crate::progress::Progress;
use crate::source::{filled, AT_ONCE};
use crate::trace::record;
use handler::{Edition, Handler, Wires, Word};
use std::io::Read;

/// What the ticks of a trace leave.
pub struct Ran {
    pub handler: Handler,
    /// How many ticks they are.
    pub ticks: u64,
    /// The wires of the last one; at rest where there is none.
    pub wires: Wires,
    /// Bytes after the last record that was read, too few for another.
    pub left: usize,
}

/// Runs the records of a trace after its N, up to this tick.
pub fn run(
    from: &mut impl Read,
    name: &str,
    edition: Edition,
    handler: Handler,
    to: u64,
    progress: &mut Progress,
) -> Result<Ran, String> {
    let mut ran = Ran {
        handler,
        ticks: 0,
        wires: Wires::REST,
        left: 0,
    };
    let mut buffer = vec![0; AT_ONCE * edition.bytes()];
    let mut words = vec![Word::default(); AT_ONCE];
    while ran.ticks < to && ran.left == 0 {
        let most = usize::try_from(to - ran.ticks).unwrap_or(AT_ONCE);
        let wanted = &mut buffer[..most.min(AT_ONCE) * edition.bytes()];
        let have = filled(from, wanted, name)?;
        let records = &wanted[..have / edition.bytes() * edition.bytes()];
        let (after, answer) = ran.handler.batch(edition, records, &mut words);
        if let Err(refusal) = answer.value() {
            return Err(format!("the library refused records by {}", refusal.0));
        }
        ran.handler = after;
        if let Some(last) = records.chunks_exact(edition.bytes()).last() {
            ran.wires = record::input(edition, last).sample.alerts;
        }
        ran.ticks += (records.len() / edition.bytes()) as u64;
        ran.left = have - records.len();
        if progress.is_due(ran.ticks) {
            progress.say(ran.ticks);
        }
        if have < wanted.len() {
            break;
        }
    }
    progress.clear();
    Ok(ran)
}
