//! The one signed number that every call answers.

/// A refusal by its number in document 01, "Numbers that come back", and in the requests of document 02.
#[derive(Clone, Copy, Debug, PartialEq, Eq)]
pub struct Refusal(pub u8);

impl Refusal {
    /// The register is locked. A stage of it is dropped.
    pub const LOCKED: Refusal = Refusal(3);
    /// An access that no well-formed record holds.
    pub const NO_RECORD: Refusal = Refusal(10);
    /// A lent buffer that is too short for the records or the dump.
    pub const SHORT_BUFFER: Refusal = Refusal(11);
    /// A second write that differs from the first. The stage is dropped, and local alert 5 occurs if it is enabled.
    pub const DIFFERS: Refusal = Refusal(12);
    /// Fewer alerts than a boot installs. Nothing is changed.
    pub const FEW_ALERTS: Refusal = Refusal(13);
    /// A class with EN that waits for 65,536 events is not locked so. Nothing is changed.
    pub const THRESHOLD: Refusal = Refusal(14);
    /// The ping timer is on, so that no tick is calm. Nothing is changed.
    pub const TIMER_ON: Refusal = Refusal(15);
    /// Bytes that are neither a dump nor the start of one.
    pub const NO_DUMP: Refusal = Refusal(16);
    /// The start of a dump that was cut, or no bytes.
    pub const CUT_DUMP: Refusal = Refusal(17);
    /// A list of changes that has fewer entries than there may be changes. Nothing is changed.
    pub const FEW_ENTRIES: Refusal = Refusal(18);
}

/// A read gives 0 to 4294967295, writing records or a dump the bytes written, calm ticks the number of changes, anything else
/// accepted 0, a refusal its negated number.
#[derive(Clone, Copy, Debug, PartialEq, Eq)]
pub struct Answer(pub i64);

impl Answer {
    /// The value, or the refusal.
    pub fn value(self) -> Result<u32, Refusal> {
        match u32::try_from(self.0) {
            Ok(value) => Ok(value),
            Err(_) => Err(self.refusal()),
        }
    }

    /// The bytes that `record` or `dump` wrote, or the refusal.
    pub fn bytes(self) -> Result<usize, Refusal> {
        match usize::try_from(self.0) {
            Ok(bytes) => Ok(bytes),
            Err(_) => Err(self.refusal()),
        }
    }

    fn refusal(self) -> Refusal {
        Refusal(self.0.unsigned_abs() as u8)
    }
}
