//! Skipping the calm: the words of the changes, 0 ticks, and the refusals.

mod common;

use common::calm::{changes, in_phase, in_timeout, skipped, ALL, EACH, KEPT};
use common::{new, tick, ALERT0, REST, SILENT};
use reference::class::{IDLE, PHASE3, TERMINAL};
use reference::{skip, Access, Handler, LinePairs, Pairs, Ticked};

/// Alert 0 enabled in class 0, whose phases have P7's lengths.
fn ready() -> Handler {
    let mut h = new(1);
    h.alerts[0].en = 1;
    (h.classes[0].ctrl, h.classes[0].phase_cyc) = (EACH, [0, 10, 10, 5]);
    h.intr_enable = ALL;
    h
}

/// What comes out with every pair at (0,1).
fn resting(answer: i64, interrupts: u8, lines: u8) -> Ticked {
    Ticked {
        answer,
        interrupts,
        lines,
        acknowledge: Pairs::at_rest(),
        ping: Pairs::at_rest(),
        escalation: SILENT,
    }
}

#[test]
fn an_escalation_as_words() {
    // P7, started in tick 1: phases at 1, 2, 12 and 22, Terminal at 27.
    let mut h = ready();
    let mut list = [KEPT; 21];
    let ticked = skip(&mut h, &ALERT0.pos, &ALERT0.neg, 1000, &mut list);
    assert_eq!(ticked.answer, 5);
    assert_eq!(list[0], 0x8000_0000_0000_0001);
    assert_eq!(list[1], 0x4000_0000_0000_0002);
    assert_eq!(list[2], 0x2000_0000_0000_000c);
    assert_eq!(list[3], 0x1000_0000_0000_0016);
    assert_eq!(list[4], 0x0000_0000_0000_001b);
    assert_eq!(list[5..], [KEPT; 16]);
    assert_eq!((h.classes[0].state, h.classes[0].esc_cnt), (TERMINAL, 0));
    assert_eq!((ticked.interrupts, ticked.lines), (1, 0));
}

#[test]
fn lengths_that_end_at_and_around_each_change() {
    let all = [(1, 1), (2, 2), (4, 12), (8, 22), (0, 27)];
    for ticks in 0..40 {
        let mut h = ready();
        let (ticked, found) = skipped(&mut h, ALERT0, ticks);
        let expected: Vec<_> = all.into_iter().filter(|row| row.1 <= ticks).collect();
        assert_eq!(found, expected, "{ticks}");
        assert_eq!(ticked.lines, expected.last().map_or(0, |row| row.0));
        assert_eq!(ticked.interrupts, u8::from(ticks > 0));
        // The alert's rise is acknowledged from the second tick on.
        assert_eq!(ticked.acknowledge.pos[0] >> 63, u64::from(ticks > 1));
    }
}

#[test]
fn no_tick_shows_the_given_state_without_pairs() {
    let mut h = new(2);
    in_phase(&mut h, 1, 2, 5, [1, 1, 9, 1]);
    (h.intr_state, h.intr_enable) = (0b0111, 0b1110);
    // Pairs that a tick would show.
    h.receivers[1].place = reference::Place::Acknowledged;
    h.receivers[0].ping = true;
    h.senders[2].send(true, false);
    let before = h.clone();
    for sample in [REST, ALERT0] {
        let (ticked, found) = skipped(&mut h, sample, 0);
        assert_eq!(ticked, resting(0, 0b0110, 0b0100));
        assert_eq!(found, []);
        assert_eq!(h, before);
    }
    // In a tick they do show.
    let (ticked, found) = skipped(&mut h, REST, 1);
    assert_eq!(found, []);
    assert_eq!(ticked.acknowledge.pos[0] >> 62, 0b01);
    assert_eq!(ticked.ping.pos[0] >> 62, 0b10);
    assert_eq!(ticked.escalation, LinePairs { pos: 4, neg: 11 });
}

#[test]
fn tick_0_is_the_state_whatever_its_senders_hold() {
    // The line was on before, the class that drives it is not there any more.
    let mut h = new(1);
    h.senders[0].send(true, false);
    assert_eq!(changes(&mut h, REST, 5), []);
    // The class drives the line, its sender has not sent it yet.
    let mut h = new(1);
    in_phase(&mut h, 0, 0, 1, [3, 1, 1, 1]);
    assert_eq!(changes(&mut h, REST, 2), []);
    assert_eq!(changes(&mut h, REST, 1), [(2, 1)]);
}

#[test]
fn one_tick_is_the_plain_tick() {
    let mut h = ready();
    let mut plain = h.clone();
    let (ticked, _) = skipped(&mut h, ALERT0, 1);
    let expected = tick(&mut plain, Access::None, ALERT0);
    assert_eq!(
        ticked,
        Ticked {
            answer: 1,
            ..expected
        }
    );
    assert_eq!(h, plain);
}

// Refusals

/// A state of its own for each way in which one is broken.
fn broken() -> Vec<Handler> {
    let change: [fn(&mut Handler); 6] = [
        |h| h.n = 249,
        |h| h.classes[3].state = 2,
        |h| h.classes[0].esc_cnt = 1,
        |h| h.classes[1].state = PHASE3,
        |h| h.timer.stage = 0x1_0001,
        |h| h.receivers[0].open = true,
    ];
    let states = change.iter().map(|change| {
        let mut h = ready();
        change(&mut h);
        h
    });
    states.collect()
}

/// Checks that a skip of any length is refused and leaves everything.
fn refused(h: &Handler, entries: usize, answer: i64) {
    for ticks in [0, 1, 2, u32::MAX] {
        let (mut now, mut list) = (h.clone(), vec![KEPT; entries]);
        let ticked = skip(&mut now, &ALERT0.pos, &ALERT0.neg, ticks, &mut list);
        assert_eq!(ticked, resting(answer, 0, 0), "{ticks}, {entries}");
        assert_eq!(&now, h);
        assert_eq!(list, vec![KEPT; entries]);
    }
}

#[test]
fn the_refusals_in_their_order() {
    for mut h in broken() {
        for entries in [0, 19, 20, 30] {
            refused(&h, entries, -7);
        }
        // A timer that is on does not come first.
        if !h.receivers[0].open {
            h.timer.enable = 1;
            refused(&h, 0, -7);
            refused(&h, 20, -7);
        }
    }
    let mut on = ready();
    in_timeout(&mut on, 2, 3, 4, [1; 4]);
    on.timer.enable = 1;
    for entries in [0, 19, 20, 30] {
        refused(&on, entries, -15);
    }
    let mut off = on.clone();
    off.timer.enable = 0;
    for entries in [0, 1, 4, 5, 19] {
        refused(&off, entries, -18);
    }
}

#[test]
fn a_list_of_20_is_enough_and_a_timer_that_is_off_no_matter() {
    let mut h = ready();
    // Whatever the timer was at, it is off, and nothing of it moves.
    h.timer.timeout = 7;
    (h.timer.number, h.timer.count) = (3, 0);
    let timer = h.timer;
    let mut list = [KEPT; 20];
    let ticked = skip(&mut h, &ALERT0.pos, &ALERT0.neg, 27, &mut list);
    assert_eq!(ticked.answer, 5);
    assert_eq!(h.timer, timer);
}

#[test]
fn a_handler_of_no_alerts() {
    let (mut h, answer) = Handler::new(0);
    assert_eq!(answer, -6);
    let before = h.clone();
    assert_eq!(skipped(&mut h, ALERT0, 50), (resting(0, 0, 0), vec![]));
    assert_eq!(h, before);
    in_phase(&mut h, 3, 3, 1, [0; 4]);
    assert_eq!(changes(&mut h, ALERT0, 50), [(0, 1)]);
    assert_eq!(h.classes[0].state, IDLE);
}
