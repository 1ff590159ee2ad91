//! The four registers of an alert, and of a local alert.

/// A register that every alert and every local alert has; each has a block of its own.
#[derive(Clone, Copy, Debug, PartialEq, Eq)]
pub enum Field {
    /// REGWEN, which guards EN and CLASS.
    Regwen,
    /// EN.
    En,
    /// CLASS.
    Class,
    /// CAUSE.
    Cause,
}

impl Field {
    /// All, in the order of their blocks.
    pub const ALL: [Field; 4] = [Field::Regwen, Field::En, Field::Class, Field::Cause];

    /// The name after that of the alert.
    pub fn name(self) -> &'static str {
        match self {
            Field::Regwen => "REGWEN",
            Field::En => "EN",
            Field::Class => "CLASS",
            Field::Cause => "CAUSE",
        }
    }

    /// The bits of the register.
    pub fn bits(self) -> u32 {
        match self {
            Field::Class => 2,
            _ => 1,
        }
    }

    /// Does it take two equal writes?
    pub fn is_shadowed(self) -> bool {
        matches!(self, Field::En | Field::Class)
    }
}
