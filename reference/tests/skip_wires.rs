//! Skipping the calm: what steady alert wires do. A rise is one event, equal
//! wires on an enabled alert are an event in every tick, and nothing else is.

mod common;

use common::calm::{changes, skipped, EACH};
use common::{new, raised, sampled, with, ALERT0, COUNTS, REST};
use reference::class::{IDLE, PHASE0, TIMEOUT};
use reference::{Handler, Place};

/// N alerts, all enabled in class 0, and local 2 in class 1. Both classes have
/// this threshold and long phases.
fn ready(n: u64, thresh: u16) -> Handler {
    let mut h = new(n);
    for alert in &mut h.alerts[..n as usize] {
        alert.en = 1;
    }
    (h.locals[2].en, h.locals[2].class) = (1, 1);
    for class in &mut h.classes[..2] {
        (class.ctrl, class.accum_thresh) = (EACH, thresh);
        class.phase_cyc = [u32::MAX; 4];
    }
    h
}

/// The wires of alert 0 at equal levels, the others at rest.
const EQUAL: [(u64, u64); 2] = [(0, 0), (1, 1)];

#[test]
fn a_rise_is_taken_once_and_where_the_receiver_is_ready() {
    let rows = [
        (Place::Ready, Some(1)),
        (Place::Acknowledged, None),
        (Place::FirstPause, Some(3)),
        (Place::SecondPause, Some(2)),
    ];
    for (place, taken) in rows {
        let mut h = ready(1, 0);
        h.receivers[0].place = place;
        let expected: Vec<_> = taken.map(|tick| (1, tick)).into_iter().collect();
        let (ticked, found) = skipped(&mut h, ALERT0, 100);
        assert_eq!(found, expected, "{place:?}");
        assert_eq!(h.receivers[0].place, Place::Acknowledged);
        assert_eq!(ticked.acknowledge.pos[0], 1 << 63);
        let count = u16::from(taken.is_some());
        assert_eq!(h.classes[0].accum_cnt, count);
        assert_eq!(h.alerts[0].cause, count as u8);
        // It is acknowledged from the tick after it was taken.
        if let Some(tick) = taken {
            let mut h = ready(1, 0);
            h.receivers[0].place = place;
            assert_eq!(skipped(&mut h, ALERT0, tick).0.acknowledge.pos[0], 0);
        }
    }
}

#[test]
fn wires_at_rest_finish_the_handshake() {
    for place in [Place::Acknowledged, Place::FirstPause, Place::SecondPause] {
        let mut h = ready(1, 0);
        h.receivers[0].place = place;
        let (ticked, found) = skipped(&mut h, REST, 3);
        assert_eq!((found, ticked.acknowledge.pos[0]), (vec![], 0));
        assert_eq!(h.receivers[0].place, Place::Ready);
        assert_eq!(h.classes[0].accum_cnt, 0);
    }
}

#[test]
fn rises_in_one_tick_are_one_event() {
    for n in COUNTS {
        let mut h = ready(n, 0);
        let sample = raised(&(0..n as usize).collect::<Vec<_>>());
        assert_eq!(changes(&mut h, sample, 9), [(1, 1)]);
        assert_eq!(h.classes[0].accum_cnt, 1);
        assert!(h.alerts[..n as usize].iter().all(|alert| alert.cause == 1));
    }
}

#[test]
fn rises_that_wait_come_one_after_the_other() {
    // Ready, second pause, first pause: events in ticks 1, 2 and 3.
    for (thresh, start) in [(0, Some(1)), (1, Some(2)), (2, Some(3)), (3, None)] {
        let mut h = ready(3, thresh);
        h.receivers[1].place = Place::SecondPause;
        h.receivers[2].place = Place::FirstPause;
        let expected: Vec<_> = start.map(|tick| (1, tick)).into_iter().collect();
        assert_eq!(changes(&mut h, raised(&[0, 1, 2]), 50), expected);
        assert_eq!(h.classes[0].accum_cnt, 3);
    }
}

#[test]
fn equal_wires_are_an_event_in_every_tick() {
    for pair in EQUAL {
        for thresh in [0, 1, 2, 99, 65534, 65535] {
            let mut h = ready(1, thresh);
            let at = u32::from(thresh) + 1;
            let sample = with(REST, 0, pair);
            let mut short = h.clone();
            assert_eq!(changes(&mut short, sample, at - 1), []);
            assert_eq!(short.classes[1].state, IDLE);
            assert_eq!(changes(&mut h, sample, at), [(1, at)]);
            assert_eq!(h.classes[1].state, PHASE0);
            assert_eq!(u32::from(h.classes[1].accum_cnt), at.min(65535));
            assert_eq!((h.locals[2].cause, h.alerts[0].cause), (1, 0));
            // Counting goes on, up to 65,535.
            changes(&mut h, sample, 10);
            assert_eq!(u32::from(h.classes[1].accum_cnt), (at + 10).min(65535));
        }
    }
}

#[test]
fn counts_near_the_threshold() {
    let rows: [(u16, u16, u32); 7] = [
        (9, 10, 2),
        (10, 10, 1),
        (11, 10, 1),
        (65534, 65535, 2),
        (65535, 65535, 1),
        (65535, 0, 1),
        (65533, 65535, 3),
    ];
    for (count, thresh, at) in rows {
        let mut h = ready(1, thresh);
        h.classes[1].accum_cnt = count;
        let found = changes(&mut h, with(REST, 0, (1, 1)), 5);
        assert_eq!(found, [(1, at)], "{count}, {thresh}");
        assert_eq!(h.classes[1].accum_cnt, count.saturating_add(5));
    }
}

#[test]
fn equal_wires_hold_the_receiver_where_it_is() {
    let places = [
        Place::Ready,
        Place::Acknowledged,
        Place::FirstPause,
        Place::SecondPause,
    ];
    for (place, pair) in places.into_iter().zip(EQUAL.into_iter().cycle()) {
        let mut h = ready(1, 65535);
        h.receivers[0].place = place;
        changes(&mut h, with(REST, 0, pair), 77);
        assert_eq!(h.receivers[0].place, place);
        assert_eq!(h.classes[1].accum_cnt, 77);
    }
}

#[test]
fn equal_wires_count_only_on_enabled_alerts_and_with_local_2() {
    for (alert, local, class) in [(0, 1, EACH), (1, 0, EACH), (1, 1, EACH & !1)] {
        let mut h = ready(1, 0);
        (h.alerts[0].en, h.locals[2].en, h.classes[1].ctrl) = (alert, local, class);
        assert_eq!(changes(&mut h, with(REST, 0, (0, 0)), 30), []);
        assert_eq!((h.classes[1].accum_cnt, h.intr_state), (0, 0));
        // A class without EN does not keep the local alert from its cause.
        assert_eq!(h.locals[2].cause, alert & local);
    }
}

#[test]
fn an_event_makes_a_class_due() {
    // The event is below the threshold, but its interrupt starts the timeout.
    let mut h = ready(1, 9);
    h.classes[0].timeout_cyc = 6;
    assert_eq!(changes(&mut h.clone(), ALERT0, 6), []);
    assert_eq!(changes(&mut h.clone(), ALERT0, 100), [(1, 7)]);
    // Events of every tick end a timeout before it is over.
    (h.classes[1].timeout_cyc, h.classes[1].accum_thresh) = (1000, 9);
    let sample = with(REST, 0, (1, 1));
    let mut short = h.clone();
    assert_eq!(changes(&mut short, sample, 9), []);
    assert_eq!(
        (short.classes[1].state, short.classes[1].esc_cnt),
        (TIMEOUT, 9)
    );
    assert_eq!(changes(&mut h, sample, 10), [(1, 10)]);
}

#[test]
fn wires_at_n_and_above_count_for_nothing() {
    for n in [1, 63, 64, 247, 248] {
        let mut h = ready(n, 0);
        // Registers that are none, and would count if they were.
        for alert in &mut h.alerts[n as usize..] {
            alert.en = 1;
        }
        let before = h.clone();
        let mut sample = sampled([u64::MAX; 4], [u64::MAX; 4]);
        for i in 0..n as usize {
            sample = with(sample, i, (0, 1));
        }
        assert_eq!(changes(&mut h, sample, 20), []);
        assert_eq!(h, before);
    }
}
