//! The places of a state: every stored field by name, with the most that it
//! may hold and the bits that are kept for it.

use super::receiver::Bit;
use super::sender::Sent;
use handler::registers::{Field, Setting, INTR_BITS, PING_TIMEOUT_BITS};
use handler::{ALERTS, CLASSES, LOCALS, WORDS};
use std::fmt;

/// A stored field of a state.
#[derive(Clone, Copy, Debug, PartialEq, Eq)]
pub enum Place {
    /// The number of alerts.
    N,
    /// A word of the receivers.
    Receivers(Bit, usize),
    /// INTR_STATE.
    IntrState,
    /// INTR_ENABLE.
    IntrEnable,
    /// PING_TIMER_REGWEN.
    PingRegwen,
    /// PING_TIMEOUT_CYC.
    PingTimeout,
    /// PING_TIMER_EN.
    PingEnable,
    /// The stage of PING_TIMEOUT_CYC.
    PingStage,
    /// The number of the timer's turn.
    TurnNumber,
    /// The alert that it drew.
    TurnAlert,
    /// Its count.
    TurnCount,
    /// The lines whose ping is open.
    Lines,
    /// A field of the lines' senders.
    Senders(Sent),
    /// Whether the answers to a line's open ping were right so far.
    Right,
    /// A class's register.
    Class(usize, Setting),
    /// An alert's register.
    Alert(Field, usize),
    /// A local alert's register.
    Local(Field, usize),
    /// The stage of a class's register.
    ClassStage(usize, Setting),
    /// The stage of an alert's register.
    AlertStage(Field, usize),
    /// The stage of a local alert's register.
    LocalStage(Field, usize),
}

impl Place {
    /// Those of the ping timer.
    pub const TIMER: [Place; 8] = [
        Place::PingRegwen,
        Place::PingTimeout,
        Place::PingEnable,
        Place::PingStage,
        Place::TurnNumber,
        Place::TurnAlert,
        Place::TurnCount,
        Place::Lines,
    ];

    /// Every place of a state.
    pub fn all() -> Vec<Place> {
        let mut all = vec![Place::N, Place::IntrState, Place::IntrEnable];
        all.extend(Place::TIMER);
        all.extend(Sent::ALL.map(Place::Senders));
        all.push(Place::Right);
        for bit in Bit::ALL {
            all.extend((0..WORDS).map(|word| Place::Receivers(bit, word)));
        }
        for k in 0..CLASSES {
            // CLR holds no value.
            all.extend(Setting::READABLE.map(|setting| Place::Class(k, setting)));
            all.extend(Setting::SHADOWED.map(|setting| Place::ClassStage(k, setting)));
        }
        for field in Field::ALL {
            all.extend((0..ALERTS).map(|i| Place::Alert(field, i)));
            all.extend((0..LOCALS).map(|j| Place::Local(field, j)));
        }
        for field in [Field::En, Field::Class] {
            all.extend((0..ALERTS).map(|i| Place::AlertStage(field, i)));
            all.extend((0..LOCALS).map(|j| Place::LocalStage(field, j)));
        }
        all
    }

    /// The most that it may hold: the largest value of a register, and one
    /// more in a stage. N, the receivers, the turn, the lines and their senders
    /// have another rule or none.
    pub fn most(self) -> Option<u64> {
        let bits = match self {
            Place::N | Place::Receivers(..) => return None,
            Place::TurnNumber | Place::TurnAlert | Place::TurnCount | Place::Lines => return None,
            Place::Senders(_) | Place::Right => return None,
            Place::PingRegwen | Place::PingEnable => 1,
            Place::PingTimeout | Place::PingStage => PING_TIMEOUT_BITS,
            Place::IntrState | Place::IntrEnable => INTR_BITS,
            Place::Class(_, setting) | Place::ClassStage(_, setting) => setting.bits(),
            Place::Alert(field, _) | Place::Local(field, _) => field.bits(),
            Place::AlertStage(field, _) | Place::LocalStage(field, _) => field.bits(),
        };
        Some((1 << bits) - u64::from(!self.is_stage()))
    }

    /// Whether it is the stage of a shadowed register.
    pub fn is_stage(self) -> bool {
        matches!(
            self,
            Place::ClassStage(..)
                | Place::AlertStage(..)
                | Place::LocalStage(..)
                | Place::PingStage
        )
    }

    /// Whether it is an entry of an alert that a handler of n alerts has not.
    pub fn is_above(self, n: usize) -> bool {
        matches!(self, Place::Alert(_, i) | Place::AlertStage(_, i) if i >= n)
    }

    /// The bits that are kept for it: those of the smallest number that holds
    /// the most, as the reference keeps it. The library keeps some in more;
    /// what stands above is tried from C (`tests/boundary-states.c`).
    pub fn kept(self) -> u32 {
        match self {
            Place::N | Place::Receivers(..) => 64,
            Place::PingTimeout | Place::TurnCount => 16,
            Place::PingStage => 32,
            Place::Senders(_) => 4,
            Place::Right => 1,
            Place::Class(_, setting) => setting.bits().next_power_of_two().max(8),
            // One bit more, for the value plus 1; that of CTRL is as wide as
            // that of ACCUM_THRESH.
            Place::ClassStage(_, setting) if setting.bits() == 32 => 64,
            Place::ClassStage(..) => 32,
            _ => 8,
        }
    }
}

impl fmt::Display for Place {
    fn fmt(&self, out: &mut fmt::Formatter) -> fmt::Result {
        match self {
            Place::N => write!(out, "N"),
            Place::Receivers(bit, word) => write!(out, "receivers' {}, word {word}", bit.name()),
            Place::IntrState => write!(out, "INTR_STATE"),
            Place::IntrEnable => write!(out, "INTR_ENABLE"),
            Place::PingRegwen => write!(out, "PING_TIMER_REGWEN"),
            Place::PingTimeout => write!(out, "PING_TIMEOUT_CYC"),
            Place::PingEnable => write!(out, "PING_TIMER_EN"),
            Place::PingStage => write!(out, "stage of PING_TIMEOUT_CYC"),
            Place::TurnNumber => write!(out, "the turn's number"),
            Place::TurnAlert => write!(out, "the turn's alert"),
            Place::TurnCount => write!(out, "the turn's count"),
            Place::Lines => write!(out, "open lines"),
            Place::Senders(sent) => write!(out, "senders' {}", sent.name()),
            Place::Right => write!(out, "right answers so far"),
            Place::Class(k, setting) => write!(out, "class {k} {}", setting.name()),
            Place::Alert(field, i) => write!(out, "alert {i} {}", field.name()),
            Place::Local(field, j) => write!(out, "local {j} {}", field.name()),
            Place::ClassStage(k, setting) => {
                write!(out, "stage of class {k} {}", setting.name())
            }
            Place::AlertStage(field, i) => write!(out, "stage of alert {i} {}", field.name()),
            Place::LocalStage(field, j) => write!(out, "stage of local {j} {}", field.name()),
        }
    }
}
