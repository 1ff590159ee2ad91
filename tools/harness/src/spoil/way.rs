//! The ways in which a state is changed.

/// How a state was made from one of a trace.
#[derive(Clone, Copy, Debug, PartialEq, Eq)]
pub enum Way {
    /// Not changed.
    Kept,
    /// Random values that keep the rule.
    Fitted,
    /// Stages opened and dropped at random, within their fields.
    Staged,
    /// Classes with EN or without, and a threshold of 65534 or 65535.
    Threshold,
    /// The ping timer at any turn, its ping open, due or to come.
    Turn,
    /// Pings open, the turn's or others.
    Pings,
    /// Random bytes in every field.
    Random,
    /// One bit flipped.
    Flip,
    /// A few bits flipped.
    Flips,
    /// One register or stage over its field, mostly just over it.
    Over,
    /// A STATE of 2, 8 or more, or any other.
    State,
    /// A count that is 0 or not, as the state does not have it.
    Count,
    /// Another N: 0, 248, 249, huge.
    Alerts,
    /// Entries at N and above set to anything.
    Above,
}

/// Every way with its name.
pub const WAYS: [(Way, &str); 14] = [
    (Way::Kept, "kept"),
    (Way::Fitted, "fitted"),
    (Way::Staged, "staged"),
    (Way::Threshold, "threshold"),
    (Way::Turn, "turn"),
    (Way::Pings, "pings"),
    (Way::Random, "random"),
    (Way::Flip, "flip"),
    (Way::Flips, "flips"),
    (Way::Over, "over"),
    (Way::State, "state"),
    (Way::Count, "count"),
    (Way::Alerts, "N"),
    (Way::Above, "above"),
];
