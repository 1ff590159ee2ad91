//! A class with no lines: EN counts in steps 3 and 4 only with a line enable.

mod common;

use common::{
    configure, event, idle, pause, raised, read, ready, sampled, tick, write, ALERT0, REST,
};
use reference::class::{IDLE, PHASE0, TERMINAL, TIMEOUT};
use reference::{Access, Handler, Place, Sample};

/// EN without a line enable; the maps are at their reset value.
const NO_LINES: u32 = 0x3901;
/// EN and all line enables, the maps at their reset value.
const ALL_LINES: u32 = 0x393D;

/// State and count of class 0.
fn stands(h: &Handler) -> (u8, u32) {
    (h.classes[0].state, h.classes[0].esc_cnt)
}

/// A tick with the first write of a value to class 0's CTRL, which does nothing.
fn stage_ctrl(h: &mut Handler, value: u32) {
    assert_eq!(write(h, 1281, value), 0);
}

/// A tick with the second write of the staged CTRL and these wires.
fn set_ctrl(h: &mut Handler, value: u32, wires: Sample) -> u8 {
    let access = Access::Write {
        register: 1281,
        value,
    };
    let ticked = tick(h, access, wires);
    assert_eq!(ticked.answer, 0);
    assert_eq!(u32::from(h.classes[0].ctrl), value);
    ticked.lines
}

#[test]
fn no_lines_no_event() {
    // LOCK and the maps are no line enables.
    for ctrl in [1, 3, NO_LINES, 0x3FC1, 0x3FC3] {
        let mut h = ready(1, ctrl);
        h.intr_enable = 15;
        for accum in [0, 7, 65535] {
            h.classes[0].accum_cnt = accum;
            let ticked = event(&mut h);
            assert_eq!((ticked.interrupts, ticked.lines), (0, 0), "{ctrl:#x}");
            assert_eq!((h.intr_state, h.classes[0].accum_cnt), (0, accum));
            assert_eq!(stands(&h), (IDLE, 0));
            // Step 2 reads no EN of a class: the alert came and was taken.
            assert_eq!(h.alerts[0].cause, 1);
            assert_eq!(h.receivers[0].place, Place::Acknowledged);
            assert_eq!(write(&mut h, 1024, 1), 0);
            pause(&mut h);
        }
        assert_eq!(read(&mut h, 1281), i64::from(ctrl));
    }
}

#[test]
fn no_lines_no_event_of_equal_wires() {
    let mut h = ready(1, NO_LINES);
    configure(&mut h, 26, 1);
    tick(&mut h, Access::None, sampled([0; 4], [0; 4]));
    assert_eq!(h.locals[2].cause, 1);
    assert_eq!((h.intr_state, h.classes[0].accum_cnt), (0, 0));
    assert_eq!(stands(&h), (IDLE, 0));
}

#[test]
fn line_enables_without_en_are_not_enough() {
    let mut h = ready(1, ALL_LINES & !1);
    event(&mut h);
    assert_eq!((h.intr_state, h.classes[0].accum_cnt), (0, 0));
    assert_eq!(stands(&h), (IDLE, 0));
}

#[test]
fn the_enables_after_the_access_count() {
    let mut h = ready(1, NO_LINES);
    stage_ctrl(&mut h, NO_LINES | 4);
    assert_eq!(set_ctrl(&mut h, NO_LINES | 4, ALERT0), 1);
    assert_eq!((h.intr_state, h.classes[0].accum_cnt), (1, 1));
    assert_eq!(stands(&h), (PHASE0, 1));

    let mut h = ready(1, ALL_LINES);
    stage_ctrl(&mut h, NO_LINES);
    assert_eq!(set_ctrl(&mut h, NO_LINES, ALERT0), 0);
    assert_eq!((h.intr_state, h.classes[0].accum_cnt), (0, 0));
    assert_eq!(stands(&h), (IDLE, 0));
}

#[test]
fn no_lines_not_due() {
    let mut h = ready(1, NO_LINES);
    configure(&mut h, 1286, 5);
    // The bit that software sets is set, but it starts no timeout.
    assert_eq!(write(&mut h, 2, 1), 0);
    assert_eq!((h.intr_state, stands(&h)), (1, (IDLE, 0)));
    // It is due as soon as a line is enabled, and a stage enables none.
    stage_ctrl(&mut h, NO_LINES | 0x20);
    assert_eq!(stands(&h), (IDLE, 0));
    set_ctrl(&mut h, NO_LINES | 0x20, REST);
    assert_eq!(stands(&h), (TIMEOUT, 1));
}

#[test]
fn a_timeout_without_lines_falls_back() {
    // At the last count too, and with an event that would be a trigger.
    for count in [1, 2, 5, u32::MAX] {
        for wires in [REST, ALERT0] {
            let mut h = ready(1, ALL_LINES);
            stage_ctrl(&mut h, NO_LINES);
            h.classes[0].timeout_cyc = 5;
            h.classes[0].state = TIMEOUT;
            h.classes[0].esc_cnt = count;
            h.classes[0].accum_cnt = 3;
            h.intr_state = 1;
            set_ctrl(&mut h, NO_LINES, wires);
            assert_eq!(stands(&h), (IDLE, 0));
            assert_eq!((h.intr_state, h.classes[0].accum_cnt), (1, 3));
        }
    }
}

#[test]
fn a_running_phase_goes_on_without_lines() {
    let mut h = ready(1, ALL_LINES);
    h.classes[0].phase_cyc = [6; 4];
    stage_ctrl(&mut h, NO_LINES);
    event(&mut h);
    assert_eq!(set_ctrl(&mut h, NO_LINES, REST), 0);
    // Phase 0 has had two of its six ticks. Every fourth tick has a rise that
    // is taken, so each phase has one at least.
    for now in 2..24u8 {
        let rises = now % 4 == 0;
        let ticked = if rises { event(&mut h) } else { idle(&mut h) };
        assert_eq!(stands(&h), (PHASE0 + now / 6, u32::from(now % 6) + 1));
        assert_eq!(ticked.lines, 0);
        assert_eq!(h.receivers[0].place == Place::Acknowledged, rises);
        // Its events are no events any more, so nothing is counted.
        assert_eq!(h.classes[0].accum_cnt, 1);
    }
    event(&mut h);
    assert_eq!(h.receivers[0].place, Place::Acknowledged);
    assert_eq!((stands(&h), h.classes[0].accum_cnt), ((TERMINAL, 0), 1));
    assert_eq!(write(&mut h, 1283, 1), 0);
    assert_eq!((stands(&h), h.classes[0].accum_cnt), ((IDLE, 0), 0));
}

#[test]
fn a_phase_drives_again_when_its_lines_come_back() {
    let mut h = ready(1, ALL_LINES);
    h.classes[0].phase_cyc = [9; 4];
    assert_eq!(event(&mut h).lines, 1);
    stage_ctrl(&mut h, NO_LINES);
    assert_eq!(set_ctrl(&mut h, NO_LINES, REST), 0);
    stage_ctrl(&mut h, ALL_LINES);
    assert_eq!(set_ctrl(&mut h, ALL_LINES, REST), 1);
    assert_eq!(stands(&h), (PHASE0, 5));
}

#[test]
fn each_line_enable_alone_is_enough() {
    for e in 0..4 {
        let mut h = ready(1, NO_LINES | (4 << e));
        h.classes[0].accum_thresh = 1;
        event(&mut h);
        assert_eq!((h.intr_state, h.classes[0].accum_cnt), (1, 1), "line {e}");
        assert_eq!(stands(&h), (IDLE, 0));
        pause(&mut h);
        // At reset line e is in Phase e.
        assert_eq!(event(&mut h).lines, u8::from(e == 0));
        assert_eq!(stands(&h), (PHASE0, 1));

        let mut h = ready(1, NO_LINES | (4 << e));
        configure(&mut h, 1286, 1);
        assert_eq!(write(&mut h, 2, 1), 0);
        assert_eq!(stands(&h), (TIMEOUT, 1), "line {e}");
        idle(&mut h);
        assert_eq!(stands(&h), (PHASE0, 1));
    }
}

#[test]
fn lock_is_not_touched() {
    // No start, so nothing is locked; LOCK stands.
    let mut h = ready(1, NO_LINES | 2);
    event(&mut h);
    assert_eq!(h.classes[0].clr_regwen, 1);
    assert_eq!(read(&mut h, 1281), i64::from(NO_LINES | 2));
    // With each single line a start locks as before.
    for e in 0..4 {
        let mut h = ready(1, NO_LINES | 2 | (4 << e));
        event(&mut h);
        assert_eq!((stands(&h), h.classes[0].clr_regwen), ((PHASE0, 1), 0));
        // Switching the lines off afterwards opens nothing.
        stage_ctrl(&mut h, NO_LINES | 2);
        set_ctrl(&mut h, NO_LINES | 2, REST);
        assert_eq!(write(&mut h, 1283, 1), -3);
        assert_eq!(h.classes[0].clr_regwen, 0);
    }
}

#[test]
fn the_other_classes_do_not_mind() {
    let mut h = ready(2, NO_LINES);
    configure(&mut h, 769, 2);
    configure(&mut h, 1313, ALL_LINES);
    let ticked = tick(&mut h, Access::None, raised(&[0, 1]));
    assert_eq!((ticked.lines, h.intr_state), (1, 4));
    assert_eq!(stands(&h), (IDLE, 0));
    assert_eq!(h.classes[2].state, PHASE0);
}
