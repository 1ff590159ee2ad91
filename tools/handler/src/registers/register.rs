//! A register by what it is, and its name.
use super::field::Field;
use super::setting::Setting;
use crate::CLASSES;
use std::fmt::{self, Display};

/// Class k is named by its letter.
pub const LETTERS: [char; CLASSES] = ['A', 'B', 'C', 'D'];

/// What a register number names. It shows as its name.
#[derive(Clone, Copy, Debug, PartialEq, Eq)]
pub enum Register {
    /// INTR_STATE.
    IntrState,
    /// INTR_ENABLE.
    IntrEnable,
    /// INTR_TEST.
    IntrTest,
    /// PING_TIMER_REGWEN, which guards the next two.
    PingRegwen,
    /// PING_TIMEOUT_CYC.
    PingTimeout,
    /// PING_TIMER_EN.
    PingEnable,
    /// A register of a local alert.
    Local(Field, usize),
    /// A register of an alert.
    Alert(Field, usize),
    /// A register of a class, 0 to 3.
    Class(usize, Setting),
}

impl Display for Register {
    fn fmt(&self, out: &mut fmt::Formatter) -> fmt::Result {
        match *self {
            Register::IntrState => out.write_str("INTR_STATE"),
            Register::IntrEnable => out.write_str("INTR_ENABLE"),
            Register::IntrTest => out.write_str("INTR_TEST"),
            Register::PingRegwen => out.write_str("PING_TIMER_REGWEN"),
            Register::PingTimeout => out.write_str("PING_TIMEOUT_CYC"),
            Register::PingEnable => out.write_str("PING_TIMER_EN"),
            Register::Local(field, j) => write!(out, "LOC_ALERT{j}_{}", field.name()),
            Register::Alert(field, i) => write!(out, "ALERT{i}_{}", field.name()),
            Register::Class(k, setting) => write!(out, "CLASS{}_{}", LETTERS[k], setting.name()),
        }
    }
}

/// The index and the field of `5_EN`; an index has no leading zero and no sign.
fn source(rest: &str) -> Option<(Field, usize)> {
    let (digits, name) = rest.split_once('_')?;
    let index: usize = digits.parse().ok()?;
    let field = Field::ALL.into_iter().find(|field| field.name() == name)?;
    (index.to_string() == digits).then_some((field, index))
}

/// The class and the setting of `A_CTRL`.
fn setting(rest: &str) -> Option<(usize, Setting)> {
    let (letter, name) = rest.split_once('_')?;
    let k = LETTERS.iter().position(|l| l.to_string() == letter)?;
    let setting = Setting::ALL.into_iter().find(|s| s.name() == name)?;
    Some((k, setting))
}

impl Register {
    /// Does it take two equal writes?
    pub fn is_shadowed(self) -> bool {
        match self {
            Register::IntrState | Register::IntrEnable | Register::IntrTest => false,
            Register::PingRegwen | Register::PingEnable => false,
            Register::PingTimeout => true,
            Register::Local(field, _) | Register::Alert(field, _) => field.is_shadowed(),
            Register::Class(_, setting) => setting.is_shadowed(),
        }
    }

    /// How many equal writes give it a value.
    pub fn writes(self) -> usize {
        1 + usize::from(self.is_shadowed())
    }

    /// The register of this name; whether an edition has that alert, its map says.
    pub fn named(name: &str) -> Option<Register> {
        match name {
            "INTR_STATE" => return Some(Register::IntrState),
            "INTR_ENABLE" => return Some(Register::IntrEnable),
            "INTR_TEST" => return Some(Register::IntrTest),
            "PING_TIMER_REGWEN" => return Some(Register::PingRegwen),
            "PING_TIMEOUT_CYC" => return Some(Register::PingTimeout),
            "PING_TIMER_EN" => return Some(Register::PingEnable),
            _ => {}
        }
        if let Some(rest) = name.strip_prefix("LOC_ALERT") {
            source(rest).map(|(field, j)| Register::Local(field, j))
        } else if let Some(rest) = name.strip_prefix("ALERT") {
            source(rest).map(|(field, i)| Register::Alert(field, i))
        } else {
            let (k, setting) = setting(name.strip_prefix("CLASS")?)?;
            Some(Register::Class(k, setting))
        }
    }
}
