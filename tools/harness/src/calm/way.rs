//! The ways in which the state before a calm call is made.

/// How a state was made.
#[derive(Clone, Copy, Debug, PartialEq, Eq)]
pub enum Way {
    /// That of a trace, its ping timer mostly off.
    Kept,
    /// Random values that keep the rule, the ping timer off.
    Fitted,
    /// Classes with counts near their ends.
    Near,
    /// The same, with equal wires on an enabled alert and local 2 enabled: an
    /// event in every tick.
    Broken,
    /// The same, with counts that are met in one tick.
    Together,
    /// The same, with accumulators from which 65,535 or the threshold is far.
    Counting,
    /// Classes that start one after another, so that there are 20 changes.
    Twenty,
    /// Receivers in every place.
    Receivers,
    /// Senders that no call leaves.
    Senders,
    /// Entries at N and above set to anything, few alerts or none.
    Above,
    /// Something that no call gives, or the ping timer on.
    Refused,
}

/// Every way with its name.
pub const WAYS: [(Way, &str); 11] = [
    (Way::Kept, "kept"),
    (Way::Fitted, "fitted"),
    (Way::Near, "near"),
    (Way::Broken, "broken"),
    (Way::Together, "together"),
    (Way::Counting, "counting"),
    (Way::Twenty, "twenty"),
    (Way::Receivers, "receivers"),
    (Way::Senders, "senders"),
    (Way::Above, "above"),
    (Way::Refused, "refused"),
];

/// How often each is taken. One with long runs takes as long as hundreds of
/// the others.
pub const WEIGHTS: [u64; WAYS.len()] = [150, 100, 200, 300, 100, 2, 100, 100, 100, 100, 100];
