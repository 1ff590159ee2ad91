//! The receivers that are not ready as a tick begins.
use crate::alert_bits::{self, AlertBits};
use crate::facts::receivers::at;
use crate::facts::tick::Tick;
use crate::summary::words::ranges;
use handler::{Place, WORDS};
use std::array::from_fn;

/// What can be said of a receiver, and of which it is.
fn said(t: &Tick) -> [(&'static str, AlertBits); 3] {
    [
        ("ack", at(t, Place::Acknowledged)),
        ("pause1", at(t, Place::FirstPause)),
        ("pause2", at(t, Place::SecondPause)),
    ]
}

/// By their alerts, as ` [ack 0] [pause2 3-5]`; nothing where all are ready.
pub fn list(t: &Tick) -> String {
    let group = |(words, bits): (&str, AlertBits)| {
        let alerts: Vec<usize> = alert_bits::alerts(bits).collect();
        match alerts[..] {
            [] => String::new(),
            _ => format!(" [{words} {}]", ranges(&alerts)),
        }
    };
    said(t).map(group).concat()
}

/// How many they are, as ` ^3`, where their alerts have no room.
pub fn count(t: &Tick) -> String {
    let any = |or: AlertBits, (_, bits): (&str, AlertBits)| from_fn(|word| or[word] | bits[word]);
    let all = said(t).into_iter().fold([0; WORDS], any);
    match alert_bits::count(all) {
        0 => String::new(),
        number => format!(" ^{number}"),
    }
}
