//! A ping that is due in the coming tick, and how it stands after a tick.

use super::timer::{alert_due, answering, line_due};
use super::{raised, ready, REST};
use reference::timer::Turn;
use reference::{Handler, Sample};

/// A handler of two alerts, both locked and enabled in class 0, and local 0 and
/// 1 enabled in class 0 and 1; all the classes are off. The turn's ping is due
/// in the coming tick.
pub fn pinged(turn: Turn, timeout: u16) -> Handler {
    let mut h = ready(2, 0x393C);
    for alert in &mut h.alerts[..2] {
        alert.regwen = 0;
    }
    (h.locals[0].en, h.locals[1].en, h.locals[1].class) = (1, 1, 1);
    h.timer = match turn {
        Turn::Alert(i) => alert_due(i as u8),
        Turn::Line(e) => line_due(e as u8),
    };
    h.timer.timeout = timeout;
    h
}

/// The turns that are tried.
pub const TURNS: [Turn; 6] = [
    Turn::Alert(0),
    Turn::Alert(1),
    Turn::Line(0),
    Turn::Line(1),
    Turn::Line(2),
    Turn::Line(3),
];

/// The sample that answers the turn's ping.
pub fn answer(turn: Turn) -> Sample {
    match turn {
        Turn::Alert(i) => raised(&[i]),
        Turn::Line(e) => answering(REST, 1 << e),
    }
}

pub fn is_open(h: &Handler, turn: Turn) -> bool {
    match turn {
        Turn::Alert(i) => h.receivers[i].open,
        Turn::Line(e) => h.timer.lines >> e & 1 == 1,
    }
}

/// The causes of local 0 and 1.
pub fn failed(h: &Handler) -> (u8, u8) {
    (h.locals[0].cause, h.locals[1].cause)
}

/// What they are after the turn's ping has failed.
pub fn failure(turn: Turn) -> (u8, u8) {
    match turn {
        Turn::Alert(_) => (1, 0),
        Turn::Line(_) => (0, 1),
    }
}

/// Checks that the ping is open after a tick of this age.
pub fn still_open(h: &Handler, turn: Turn, age: u16) {
    assert!(is_open(h, turn), "{turn:?}, age {age}");
    assert_eq!((h.timer.count, h.timer.turn()), (age, turn));
    assert_eq!(failed(h), (0, 0));
}

/// Checks that the turn ended in a tick with this word.
pub fn ended(h: &Handler, turn: Turn, word: u32) {
    assert!(!is_open(h, turn), "{turn:?}");
    assert_ne!(h.timer.turn(), turn);
    assert_eq!(u32::from(h.timer.count), word & 0xFFFF);
    assert_eq!(h.timer.lines, 0);
    assert!(h.receivers.iter().all(|receiver| !receiver.open));
}
