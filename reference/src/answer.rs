//! The refusals and the signed number that every call answers.

/// Why an access, a batch, the making of a handler, the writing of a trace, a
/// boot, a skip or the writing or reading of a dump was refused.
#[derive(Clone, Copy, Debug, PartialEq, Eq)]
pub enum Refusal {
    /// No such register.
    NoRegister = 1,
    /// Read of a write-only or write of a read-only register.
    Direction = 2,
    /// The register is locked.
    Locked = 3,
    /// The written value has a bit outside the field.
    OutsideField = 4,
    /// The trace record is malformed.
    Malformed = 5,
    /// N is 0 or over 248.
    AlertCount = 6,
    /// The state breaks the rule on stored states, or has more alerts than the
    /// records of a batch, or its ping timer is on and they have no words.
    BrokenState = 7,
    /// The batch length is not a multiple of its edition's record.
    BatchLength = 8,
    /// The output list is shorter than the records.
    ShortList = 9,
    /// No well-formed record holds an access of the written list.
    Unrecordable = 10,
    /// The buffer is shorter than the records or the dump to write.
    ShortBuffer = 11,
    /// The written value differs from the one that the register's stage holds.
    StageDiffers = 12,
    /// The handler has fewer alerts than the boot policy names.
    TooFewAlerts = 13,
    /// A class that waits for 65,536 events is not to be locked so.
    SillyThreshold = 14,
    /// The ping timer is on, so its ticks are not calm.
    TimerOn = 15,
    /// The bytes are neither a dump nor the cut start of one.
    BrokenDump = 16,
    /// The bytes are the cut start of a dump, or there are none.
    CutDump = 17,
    /// The list of changes has fewer than 20 entries.
    ShortChanges = 18,
}

impl Refusal {
    /// The negated refusal number.
    pub fn answer(self) -> i64 {
        -(self as i64)
    }
}

/// The number for a result: the value, or minus the refusal number.
pub fn answer(result: Result<u32, Refusal>) -> i64 {
    match result {
        Ok(value) => i64::from(value),
        Err(refusal) => refusal.answer(),
    }
}

/// The refusal number in an answer, 0 if it is not a refusal.
pub fn refusal_number(answer: i64) -> u64 {
    if answer < 0 {
        answer.unsigned_abs()
    } else {
        0
    }
}

/// The value in an answer, 0 if it is a refusal.
pub fn value(answer: i64) -> u64 {
    if answer < 0 {
        0
    } else {
        answer as u64
    }
}
