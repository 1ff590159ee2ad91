//! What a tick hears, as the library tells it.
use crate::answer::Answer;
use crate::state::WORDS;

/// Alerts and local alerts that a tick hears; alerts in the wires' order of bits, 0 at N and above.
#[derive(Clone, Copy, Debug, PartialEq, Eq)]
pub struct Heard {
    /// The alerts with an event, enabled or not.
    pub events: [u64; WORDS],
    /// The alerts whose open ping is answered.
    pub answers: [u64; WORDS],
    /// The local alerts that occur: local 0 is the lowest bit.
    pub locals: u64,
    /// The tick's answer to its access.
    pub answer: Answer,
}
