//! What a kind of trace writes, and how often it takes each step.

use super::Kind;

/// The values that a trace gives to its class registers.
#[derive(Clone, Copy)]
pub struct Values {
    /// For ACCUM_THRESH.
    pub thresholds: &'static [u32],
    /// For TIMEOUT_CYC.
    pub timeouts: &'static [u32],
    /// For the phase lengths.
    pub lengths: &'static [u32],
    /// LOCK is set once in so many times.
    pub lock_once_in: u64,
}

/// How often each step comes in the main part of a trace: watch, none, clear,
/// interrupts, cause, change, lock, refused, malformed, stage, burst,
/// threshold.
pub type Weights = [u64; 12];

/// Values and weights of the kinds that `play` makes.
pub fn profile(kind: Kind) -> (Values, Weights) {
    const MAX: u32 = u32::MAX;
    let mut values = Values {
        thresholds: &[0, 1, 2, 2, 3, 65535],
        // The large ones show a length cut to 16 bits or taken as signed.
        timeouts: &[0, 0, 1, 2, 3, 6, 0x1_0001, MAX],
        lengths: &[0, 0, 1, 1, 2, 2, 3, 3, 5, 0x1_0001, 0x8000_0001, MAX],
        lock_once_in: 5,
    };
    let weights = match kind {
        Kind::Escalate => {
            values.thresholds = &[0, 1, 2];
            values.timeouts = &[0];
            values.lengths = &[0, 0, 1, 2, 3, 4];
            values.lock_once_in = 8;
            [85, 2, 12, 3, 3, 4, 0, 3, 2, 1, 2, 0]
        }
        Kind::Timeout => {
            values.thresholds = &[2, 65535, 65535];
            values.timeouts = &[0, 1, 2, 3, 4, 7, MAX];
            [85, 2, 9, 14, 1, 3, 0, 2, 1, 1, 1, 0]
        }
        Kind::Accumulate => {
            values.thresholds = &[0, 1, 2, 3, 5, 9, 20];
            [85, 2, 8, 5, 3, 3, 0, 4, 2, 1, 2, 0]
        }
        Kind::Locks => {
            values.thresholds = &[0, 0, 1, 2];
            values.lock_once_in = 1;
            [80, 2, 10, 3, 2, 5, 5, 5, 2, 3, 4, 0]
        }
        Kind::Refusals => [60, 2, 3, 3, 2, 2, 2, 18, 7, 3, 1, 0],
        Kind::Shadow => {
            values.thresholds = &[0, 0, 1, 2, 65535];
            [90, 2, 8, 5, 3, 2, 1, 3, 2, 30, 2, 0]
        }
        Kind::Threshold => {
            // No event of a short trace exceeds them: its starts are timeouts.
            values.thresholds = &[65534, 65535];
            values.timeouts = &[0, 1, 2, 3, 4, 7, MAX];
            [60, 2, 6, 10, 1, 0, 0, 2, 1, 1, 1, 25]
        }
        _ => [85, 2, 8, 6, 4, 4, 1, 5, 3, 3, 2, 0],
    };
    (values, weights)
}
