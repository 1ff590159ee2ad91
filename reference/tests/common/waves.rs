//! Waves: what one alert's wires do and what its pairs show, a character a
//! tick. `1` is the pair (1,0), `0` is (0,1), `x` is (0,0) and `X` is (1,1).

use super::timer::due;
use super::{configure, new, tick, with, REST};
use reference::wires::wire;
use reference::{Access, Handler, Pairs};

/// The pairs that a wave's characters stand for.
pub const PAIRS: [(char, (u64, u64)); 4] =
    [('1', (1, 0)), ('0', (0, 1)), ('x', (0, 0)), ('X', (1, 1))];

/// Numbers of alerts and an alert of each, at the ends of words too.
pub const ALERTS: [(u64, usize); 5] = [(1, 0), (64, 63), (65, 64), (248, 0), (248, 247)];

/// A handler whose alert i is enabled in class 0, which counts and does not
/// escalate.
pub fn counting(n: u64, i: usize) -> Handler {
    let mut h = new(n);
    configure(&mut h, 512 + i as u16, 1);
    configure(&mut h, 1281, 0x393D);
    configure(&mut h, 1285, 65535);
    h
}

/// The pair that a wave's character stands for.
pub fn pair(wave: char) -> (u64, u64) {
    PAIRS.iter().find(|row| row.0 == wave).unwrap().1
}

/// The wave's character of alert i's pair.
pub fn level(pairs: &Pairs, i: usize) -> char {
    match (wire(&pairs.pos, i), wire(&pairs.neg, i)) {
        (true, false) => '1',
        (false, true) => '0',
        _ => panic!("equal wires at {i}"),
    }
}

/// What the ticks of a wave showed.
#[derive(Debug, PartialEq, Eq)]
pub struct Shown {
    pub acks: String,
    pub pings: String,
    pub events: String,
}

/// What a wave is to show.
pub fn shown(acks: &str, pings: &str, events: &str) -> Shown {
    Shown {
        acks: acks.into(),
        pings: pings.into(),
        events: events.into(),
    }
}

/// Runs alert i through a wave. `pings` has a `?` in each tick in which a ping
/// is due, if none is open. An event shows as `e`: cause, count and interrupt come together.
pub fn play(h: &mut Handler, i: usize, wires: &str, pings: &str) -> Shown {
    assert_eq!(wires.len(), pings.len());
    let mut shown = shown("", "", "");
    for (wave, ping) in wires.chars().zip(pings.chars()) {
        let sample = with(REST, i, pair(wave));
        if ping == '?' && !h.receivers[i].open {
            due(h, i);
        }
        (h.alerts[i].cause, h.intr_state, h.classes[0].accum_cnt) = (0, 0, 0);
        let ticked = tick(h, Access::None, sample);
        let came = (h.alerts[i].cause, h.intr_state, h.classes[0].accum_cnt);
        shown.acks.push(level(&ticked.acknowledge, i));
        shown.pings.push(level(&ticked.ping, i));
        shown.events.push(match came {
            (0, 0, 0) => '.',
            (1, 1, 1) => 'e',
            _ => panic!("half an event"),
        });
    }
    shown
}

/// Runs a wave with no pings from reset, at several alerts.
pub fn check(wires: &str, acks: &str, events: &str) {
    let quiet = "0".repeat(wires.len());
    check_pings(wires, &".".repeat(wires.len()), acks, &quiet, events);
}

/// Runs a wave from reset, at several alerts.
pub fn check_pings(wires: &str, due: &str, acks: &str, pings: &str, events: &str) {
    for (n, i) in ALERTS {
        let reached = play(&mut counting(n, i), i, wires, due);
        assert_eq!(reached, shown(acks, pings, events), "{wires} of {i}");
    }
}
