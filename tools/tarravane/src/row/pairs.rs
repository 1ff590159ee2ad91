//! The lines' pairs in a tick: those that are on while the line is off, and receive pairs that are not the right answer.
use crate::facts::pairs::{faults, sent, Fault};
use crate::facts::tick::Tick;
use crate::summary::words::ranges;
use crate::text::receive::levels;
use handler::LINES;

/// As ` [esc 0]`: a ping's pulse, or the second tick of a lone one; where the edition has no receive pairs, nothing. A line that is
/// on has its pair on.
fn pulses(t: &Tick) -> String {
    let is_on = |e: usize| sent(t) >> e & 1 == 1 && !t.word.line(e);
    let on = |e: &usize| t.edition.has_receive() && is_on(*e);
    let lines: Vec<usize> = (0..LINES).filter(on).collect();
    match lines[..] {
        [] => String::new(),
        _ => format!(" [esc {}]", ranges(&lines)),
    }
}

/// As ` [esc 0] [back 0: 01, not 10]`: what came on a line, and what was right.
pub fn list(t: &Tick) -> String {
    let one = |fault: &Fault| {
        let (came, right) = (levels(fault.came), levels(fault.right));
        format!(" [back {}: {came}, not {right}]", fault.line)
    };
    pulses(t) + &faults(t).iter().map(one).collect::<String>()
}

/// On how many lines the answer is wrong, as ` !1`, where there is no room.
pub fn short(t: &Tick) -> String {
    match faults(t).len() {
        0 => String::new(),
        lines => format!(" !{lines}"),
    }
}
