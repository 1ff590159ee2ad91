//! The ways in which the state before a boot is made.

/// How a state was made.
#[derive(Clone, Copy, Debug, PartialEq, Eq)]
pub enum Way {
    /// A new handler.
    New,
    /// After an earlier boot.
    Again,
    /// Random values that keep the rule, with nothing locked or staged.
    Open,
    /// The same with a few locks.
    Locked,
    /// The same with a few stages, equal to what a boot writes or not.
    Staged,
    /// The same with EN and thresholds of 65534 and 65535, one class locked at
    /// times.
    Threshold,
    /// The same with the ping timer on.
    Pinged,
    /// Random values that keep the rule, locks and stages too.
    Fitted,
    /// Fewer alerts than a boot installs.
    Few,
    /// Entries at N and above set to anything.
    Above,
    /// Something that no call gives.
    Damaged,
}

/// Every way with its name.
pub const WAYS: [(Way, &str); 11] = [
    (Way::New, "new"),
    (Way::Again, "again"),
    (Way::Open, "open"),
    (Way::Locked, "locked"),
    (Way::Staged, "staged"),
    (Way::Threshold, "threshold"),
    (Way::Pinged, "pinged"),
    (Way::Fitted, "fitted"),
    (Way::Few, "few"),
    (Way::Above, "above"),
    (Way::Damaged, "damaged"),
];
