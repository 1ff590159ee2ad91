//! How rows, summaries and pictures name things.
use crate::clock::Clock;
use handler::registers::Naming;
use handler::ALERT_NAMES;

#[derive(Clone, Debug, PartialEq, Eq)]
pub struct Style {
    /// Whose names registers have.
    pub naming: Naming,
    /// Have alerts the names of document 002 beside their numbers?
    pub names: bool,
    /// The time of each tick, where it is given.
    pub clock: Option<Clock>,
}

/// The name of an alert in document 002.
pub fn alert_name(i: usize) -> Option<&'static str> {
    ALERT_NAMES.get(i).copied()
}

impl Style {
    pub const PLAIN: Style = Style {
        naming: Naming::Ours,
        names: false,
        clock: None,
    };

    /// A tick by its number, and its time.
    pub fn tick(&self, number: u64) -> String {
        match &self.clock {
            None => number.to_string(),
            Some(clock) => format!("{number} ({})", clock.short(number)),
        }
    }

    /// The name of an alert in document 002, where it is asked for.
    pub fn alert_name(&self, i: usize) -> Option<&'static str> {
        alert_name(i).filter(|_| self.names)
    }

    pub fn alert(&self, i: usize) -> String {
        match self.alert_name(i) {
            None => format!("ALERT{i}"),
            Some(name) => format!("ALERT{i} ({name})"),
        }
    }
}
