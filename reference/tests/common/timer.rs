//! The ping timer set by hand, and samples with words and answers.

use super::{tick, REST};
use reference::{Access, Handler, Sample, Ticked, Timer};

/// An entropy word: the ticks to the ping, minus 1, and the alert.
pub fn entropy(ticks: u16, alert: u8) -> u32 {
    u32::from(alert) << 16 | u32::from(ticks)
}

/// The sample with this entropy word.
pub fn drawing(mut sample: Sample, word: u32) -> Sample {
    sample.word = word;
    sample
}

/// The sample as an older edition has it, with these answer bits, line 0
/// lowest, in place of the receive pairs.
pub fn answering(mut sample: Sample, answers: u8) -> Sample {
    (sample.receive, sample.answers) = (None, answers);
    sample
}

/// The timer at an alert's turn whose ping is due in the coming tick.
pub fn alert_due(alert: u8) -> Timer {
    Timer {
        enable: 1,
        alert,
        ..Timer::new()
    }
}

/// The timer at a line's turn whose ping is due in the coming tick.
pub fn line_due(e: u8) -> Timer {
    Timer {
        enable: 1,
        number: 2 * e + 1,
        ..Timer::new()
    }
}

/// Locks and enables alert i and makes its ping due in the coming tick, the
/// timer without a timeout. A line's ping that is open is taken back.
pub fn due(h: &mut Handler, i: usize) {
    (h.alerts[i].regwen, h.alerts[i].en) = (0, 1);
    h.timer = alert_due(i as u8);
    assert!(h.valid());
    assert!(!h.receivers[i].open);
}

/// A tick without access.
pub fn sample(h: &mut Handler, sample: Sample) -> Ticked {
    tick(h, Access::None, sample)
}

/// A tick at rest with this entropy word.
pub fn word(h: &mut Handler, word: u32) -> Ticked {
    sample(h, drawing(REST, word))
}
