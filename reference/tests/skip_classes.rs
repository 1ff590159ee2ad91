//! Skipping the calm: the classes move on by themselves, at counts near their
//! ends, several in one tick, and up to 20 changes of the lines.

mod common;

use common::calm::{changes, in_phase, in_timeout, skipped, Change, EACH};
use common::{new, REST};
use reference::class::{IDLE, PHASE0, TERMINAL, TIMEOUT};

/// A count far from every end.
const LONG: u32 = u32::MAX;

#[test]
fn a_phase_ends_when_its_count_is_at_its_length() {
    // Count and length, and the tick of the next phase: the count is compared
    // before it is raised, and a length of 0 lasts one tick as 1 does.
    let rows = [
        (1, 0, 1),
        (1, 1, 1),
        (1, 2, 2),
        (1, 9, 9),
        (2, 1, 1),
        (8, 9, 2),
        (9, 9, 1),
        (10, 9, 1),
        (u32::MAX, 0, 1),
        (u32::MAX, u32::MAX - 1, 1),
        (u32::MAX, u32::MAX, 1),
        (u32::MAX - 1, u32::MAX, 2),
        (u32::MAX - 7, u32::MAX, 8),
    ];
    for (count, length, at) in rows {
        for p in 0..4 {
            let mut lengths = [LONG; 4];
            lengths[usize::from(p)] = length;
            let mut h = new(1);
            in_phase(&mut h, 2, p, count, lengths);
            assert_eq!(changes(&mut h.clone(), REST, at - 1), []);
            // After Phase 3 no line is on.
            let next = 1 << (p + 1) & 0xF;
            assert_eq!(changes(&mut h, REST, at), [(next, at)], "{count}, {length}");
            let reached = if p == 3 {
                (TERMINAL, 0)
            } else {
                (PHASE0 + p + 1, 1)
            };
            assert_eq!((h.classes[2].state, h.classes[2].esc_cnt), reached);
        }
    }
}

#[test]
fn a_timeout_ends_when_its_count_is_at_its_length() {
    let rows = [
        (1, 1, 1),
        (1, 2, 2),
        (5, 9, 5),
        (9, 9, 1),
        (12, 9, 1),
        (u32::MAX, 1, 1),
        (u32::MAX, u32::MAX, 1),
        (u32::MAX - 3, u32::MAX, 4),
    ];
    for (count, timeout, at) in rows {
        let mut h = new(1);
        in_timeout(&mut h, 1, count, timeout, [LONG; 4]);
        let mut short = h.clone();
        assert_eq!(changes(&mut short, REST, at - 1), []);
        assert_eq!(short.classes[1].state, TIMEOUT);
        assert_eq!(short.classes[1].esc_cnt, count + (at - 1));
        assert_eq!(changes(&mut h, REST, at), [(1, at)], "{count}, {timeout}");
        assert_eq!((h.classes[1].state, h.classes[1].esc_cnt), (PHASE0, 1));
    }
}

#[test]
fn a_timeout_that_is_not_due_goes_idle() {
    // The interrupt is cleared, the timeout 0, EN 0, or no line enabled.
    for without in 0..4 {
        let mut h = new(1);
        in_timeout(&mut h, 3, 5, 5, [LONG; 4]);
        match without {
            0 => h.intr_state = 0,
            1 => h.classes[3].timeout_cyc = 0,
            2 => h.classes[3].ctrl &= !1,
            _ => h.classes[3].ctrl &= !0x3C,
        }
        assert_eq!(changes(&mut h, REST, 3), []);
        assert_eq!((h.classes[3].state, h.classes[3].esc_cnt), (IDLE, 0));
    }
}

#[test]
fn an_idle_class_that_is_due_takes_its_timeout_first() {
    // P8: due in tick 1, and timeout 1: Phase 0 in 2.
    for timeout in [1, 2, 10] {
        let mut h = new(1);
        h.intr_state = 1 << 2;
        let class = &mut h.classes[2];
        (class.ctrl, class.timeout_cyc, class.phase_cyc) = (EACH, timeout, [2, 0, 3, 1]);
        let first = timeout + 1;
        let starts = [(1, 0), (2, 2), (4, 3), (8, 6), (0, 7)];
        let expected: Vec<Change> = starts.iter().map(|row| (row.0, first + row.1)).collect();
        assert_eq!(changes(&mut h, REST, 500), expected);
    }
    let mut h = new(1);
    (h.intr_state, h.classes[2].ctrl) = (1 << 2, EACH);
    assert_eq!(changes(&mut h, REST, 500), []);
    assert_eq!(h.classes[2].state, IDLE);
}

#[test]
fn a_start_with_lock_locks_clr_and_a_running_phase_does_not() {
    for lock in [0, 2] {
        let mut h = new(1);
        in_timeout(&mut h, 0, 1, 6, [LONG; 4]);
        in_phase(&mut h, 1, 0, 1, [1; 4]);
        (h.classes[0].ctrl, h.classes[1].ctrl) = (EACH | lock, EACH | 2);
        assert_eq!(skipped(&mut h.clone(), REST, 5).0.lines, 0);
        skipped(&mut h, REST, 6);
        assert_eq!(h.classes[0].clr_regwen, u8::from(lock == 0));
        assert_eq!(h.classes[1].clr_regwen, 1);
    }
}

#[test]
fn phases_do_not_read_en_or_line_enables() {
    let mut h = new(1);
    in_phase(&mut h, 0, 0, 1, [2, 2, 2, 2]);
    h.classes[0].ctrl = EACH & !1;
    let starts = [(2, 2), (4, 4), (8, 6), (0, 8)];
    assert_eq!(changes(&mut h.clone(), REST, 20), starts);
    // Without line 2 its phase shows as a line that goes off.
    h.classes[0].ctrl &= !(1 << 4);
    assert_eq!(
        changes(&mut h.clone(), REST, 20),
        [(2, 2), (0, 4), (8, 6), (0, 8)]
    );
    h.classes[0].ctrl &= !0x3C;
    assert_eq!(changes(&mut h, REST, 20), []);
    assert_eq!(h.classes[0].state, TERMINAL);
}

#[test]
fn several_classes_in_one_tick_are_one_change() {
    let mut h = new(1);
    for k in 0..4 {
        in_phase(&mut h, k, 0, 1, [5, 5, 5, 5]);
        // Line k is class k's alone, on in Phase 1.
        h.classes[k].ctrl = 1 << (2 + k) | 1 << (6 + 2 * k);
    }
    assert_eq!(changes(&mut h.clone(), REST, 100), [(15, 5), (0, 10)]);
    h.classes[2].phase_cyc[0] = 6;
    let found = changes(&mut h, REST, 100);
    assert_eq!(found, [(11, 5), (15, 6), (4, 10), (0, 11)]);
}

#[test]
fn a_line_that_goes_from_class_to_class_does_not_change() {
    let mut h = new(1);
    // Class 1's Phase 0 takes line 0 over in the tick in which class 0 leaves.
    in_phase(&mut h, 0, 0, 1, [4, 9, 9, 9]);
    in_timeout(&mut h, 1, 1, 4, [3, 9, 9, 9]);
    (h.classes[0].ctrl, h.classes[1].ctrl) = (1 << 2, 1 | 1 << 2);
    assert_eq!(changes(&mut h.clone(), REST, 50), [(0, 7)]);
    // A tick later there is a gap.
    h.classes[1].timeout_cyc = 5;
    assert_eq!(changes(&mut h, REST, 50), [(0, 4), (1, 5), (0, 8)]);
}

#[test]
fn twenty_changes() {
    // One class after the other: each starts when the one before is Terminal.
    let mut h = new(1);
    let mut expected: Vec<Change> = Vec::new();
    let mut start = 1;
    for k in [2, 0, 3, 1] {
        let lengths = [3, 0, 7, 2];
        in_timeout(&mut h, k, 1, start, lengths);
        for (p, length) in lengths.iter().enumerate() {
            expected.push((1 << p, start));
            start += length.max(&1);
        }
        expected.push((0, start));
        start += 1;
    }
    assert_eq!(expected.len(), 20);
    let last = expected[19].1;
    assert_eq!(changes(&mut h.clone(), REST, last - 1), expected[..19]);
    assert_eq!(changes(&mut h.clone(), REST, last), expected);
    assert_eq!(changes(&mut h, REST, last + 1000), expected);
    // Terminal is for ever: there is nothing more to find.
    assert_eq!(changes(&mut h, REST, 1000), []);
}

#[test]
fn twenty_moves_in_turn_of_which_few_show() {
    // Class k moves in ticks k + 1, k + 5 and so on, and line p is on while any
    // class is in Phase p.
    let mut h = new(1);
    for k in 0..4 {
        in_timeout(&mut h, k, 1, 1 + k as u32, [4; 4]);
    }
    let mut expected: Vec<Change> = Vec::new();
    let mut phases = [None; 4];
    for tick in 1..=20 {
        let k = (tick as usize - 1) % 4;
        phases[k] = Some(phases[k].map_or(0, |p: u32| p + 1));
        let on = phases.iter().flatten().filter(|p| **p < 4);
        let lines = on.fold(0, |lines, p| lines | 1 << p);
        if expected.last().map_or(0, |row| row.0) != lines {
            expected.push((lines, tick));
        }
    }
    assert_eq!(changes(&mut h, REST, 100), expected);
    assert_eq!(expected.len(), 8);
}
