//! Refused accesses and the stages of shadow writes.

mod common;

use common::shadowed::{guard, open, shadowed, stage, stage_all};
use common::{new, read, tick, write, REST};
use reference::Access;

/// The handler's alerts: two, so that both have a neighbour.
const N: u64 = 2;

#[test]
fn a_refused_read_drops_no_stage() {
    let mut h = new(N);
    stage_all(&mut h);
    let stages = h.stages;
    for number in [2, 1283] {
        assert_eq!(read(&mut h, number), -2);
    }
    for number in [3, 23, 31, 514, 770, 1293, 2047, 65535] {
        assert_eq!(read(&mut h, number), -1);
    }
    assert_eq!(h.stages, stages);
}

#[test]
fn writes_refused_with_1_2_4_or_5_touch_no_stage() {
    let mut h = new(N);
    let rows = stage_all(&mut h);
    let before = h.clone();
    for ((number, largest), value) in rows {
        if largest < u32::MAX {
            for wrong in [largest + 1, u32::MAX, value | (largest + 1)] {
                assert_eq!(write(&mut h, number, wrong), -4, "{number}");
            }
        }
    }
    // Beside the registers, and where a larger handler has alerts.
    for number in [3, 23, 31, 39, 514, 759, 770, 1015, 1293, 1344, 2047] {
        assert_eq!(write(&mut h, number, 0), -1, "{number}");
    }
    for number in [1284, 1291, 1292, 1340] {
        assert_eq!(write(&mut h, number, 0), -2, "{number}");
    }
    assert_eq!(tick(&mut h, Access::Malformed, REST).answer, -5);
    assert_eq!(h, before);
}

#[test]
fn a_write_refused_with_3_drops_the_stage_of_its_register() {
    for (number, largest) in shadowed(N) {
        // Equal to the stage or not.
        for change in [0, 1] {
            let mut h = new(N);
            let rows = stage_all(&mut h);
            let value = rows.iter().find(|(row, _)| row.0 == number).unwrap().1;
            assert_eq!(write(&mut h, guard(number), 0), 0);
            assert_eq!(stage(&h, number), u64::from(value) + 1, "{number}");
            // 4 comes before 3.
            if largest < u32::MAX {
                assert_eq!(write(&mut h, number, largest + 1), -4);
            }
            assert_eq!(open(&h), rows.len());
            let mut expected = h.clone();
            assert_eq!(write(&mut h, number, value ^ change), -3, "{number}");
            assert_eq!((stage(&h, number), open(&h)), (0, rows.len() - 1));
            // Nothing else, so it is what a read leaves.
            read(&mut expected, number);
            assert_eq!(h, expected, "{number}");
            // Nothing can be staged any more.
            assert_eq!(write(&mut h, number, value), -3);
            assert_eq!(h, expected, "{number}");
        }
    }
}

#[test]
fn a_refused_write_to_a_lock_or_a_clear_drops_no_stage() {
    let mut h = new(N);
    stage_all(&mut h);
    let stages = h.stages;
    for number in [16, 22, 256, 257, 1280, 1328, 1282, 1330] {
        assert_eq!(write(&mut h, number, 0), 0);
        assert_eq!(write(&mut h, number, 1), -3, "{number}");
    }
    for number in [1283, 1331] {
        assert_eq!(write(&mut h, number, 0), -3, "{number}");
        assert_eq!(write(&mut h, number, 1), -3, "{number}");
    }
    assert_eq!(h.stages, stages);
}
