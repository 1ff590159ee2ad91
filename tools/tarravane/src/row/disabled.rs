//! The alerts that have an event while they are disabled: it sets nothing, and no cause tells of it.
use crate::facts::events::{alerts, is_enabled};
use crate::facts::tick::Tick;
use crate::summary::words::ranges;

fn disabled(t: &Tick) -> Vec<usize> {
    alerts(t).filter(|&i| !is_enabled(&t.after, i)).collect()
}

/// By their numbers, as ` [disabled 0]`; nothing where there is none.
pub fn list(t: &Tick) -> String {
    match &disabled(t)[..] {
        [] => String::new(),
        all => format!(" [disabled {}]", ranges(all)),
    }
}

/// How many they are, where their numbers have no room.
pub fn count(t: &Tick) -> String {
    match disabled(t).len() {
        0 => String::new(),
        number => format!(" -{number}"),
    }
}
