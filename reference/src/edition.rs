//! The editions of a trace record.

/// The form of the records in a batch or a program input.
#[derive(Clone, Copy, Debug, PartialEq, Eq)]
pub enum Edition {
    /// The record of the base: 24 bytes, wires for 64 alerts, and register
    /// numbers of the first map in 10 bits.
    First,
    /// The record for 248 alerts: 70 bytes, and register numbers of today's
    /// map in 11 bits, those of the ping timer unassigned.
    Second,
    /// The record for the ping timer: 75 bytes, the second's with an entropy
    /// word, four zero bits and four answer bits after it.
    Third,
    /// The record for the escalation wires: 75 bytes, the third's with four
    /// receive pairs in place of the last byte.
    Fourth,
}

impl Edition {
    /// The bytes of one record.
    pub const fn bytes(self) -> usize {
        match self {
            Edition::First => 24,
            Edition::Second => 70,
            Edition::Third | Edition::Fourth => 75,
        }
    }

    /// The most alerts: a record has a pair of wires for each.
    pub const fn alerts(self) -> usize {
        match self {
            Edition::First => 64,
            Edition::Second | Edition::Third | Edition::Fourth => 248,
        }
    }

    /// The bytes of one of a record's two wire sets.
    pub const fn wire_bytes(self) -> usize {
        self.alerts() / 8
    }

    /// The bits of a record's register number.
    pub const fn register_bits(self) -> u32 {
        match self {
            Edition::First => 10,
            Edition::Second | Edition::Third | Edition::Fourth => 11,
        }
    }

    /// Whether a record has a word for the ping timer.
    pub const fn has_word(self) -> bool {
        matches!(self, Edition::Third | Edition::Fourth)
    }

    /// Whether a record has receive pairs, by which the senders are checked.
    pub const fn has_pairs(self) -> bool {
        matches!(self, Edition::Fourth)
    }

    /// The zero bits that fill the first 32 after kind and register.
    pub const fn zero_bits(self) -> u32 {
        30 - self.register_bits()
    }
}
