//! The ticks that are shown: `--from` and `--to`.
use crate::say::say;

#[derive(Clone, Copy, Debug, PartialEq, Eq)]
pub struct Range {
    pub from: u64,
    pub to: u64,
}

impl Range {
    pub const ALL: Range = Range {
        from: 1,
        to: u64::MAX,
    };

    /// A first tick that is past the end is told: that none is shown is no fault of the trace.
    pub fn tell_missed(self, ticks: u64) {
        let from = self.from;
        if from > 1 && from > ticks {
            let s = if ticks == 1 { "" } else { "s" };
            say(&format!(
                "--from {from}: the trace has only {ticks} tick{s}"
            ));
        }
    }
}
