//! Skipping the calm: the longest skip. It takes minutes here, tick by tick, so
//! it runs only when asked for, in a release build:
//! `cargo test --release -p reference --test skip_long -- --ignored`

mod common;

use common::calm::{in_phase, in_timeout, skipped};
use common::{new, ALERT0};
use reference::class::{PHASE0, TERMINAL};

#[test]
#[ignore = "4,294,967,295 plain ticks take minutes"]
fn the_longest_skip() {
    let most = u32::MAX;
    let mut h = new(1);
    h.alerts[0].en = 1;
    // Class 0 starts in tick 1; its Phase 3, from tick 22 on, ends in the last.
    h.classes[0].phase_cyc = [0, 10, 10, most - 22];
    // Class 1 comes to its last phase one tick before. Class 2 starts in the
    // last tick, and class 3 leaves its longest phase in it.
    in_phase(&mut h, 1, 2, 2, [1, 1, most, most]);
    in_timeout(&mut h, 2, 1, most, [9; 4]);
    in_phase(&mut h, 3, 0, 1, [most; 4]);
    // Class k shows on line k alone, in one phase.
    for (k, phase) in [3, 3, 0, 0].into_iter().enumerate() {
        h.classes[k].ctrl = 1 | 1 << (2 + k) | phase << (6 + 2 * k);
    }
    let (ticked, found) = skipped(&mut h, ALERT0, most);
    assert_eq!(found, [(8 | 1, 22), (8 | 2 | 1, most - 1), (4 | 2, most)]);
    assert_eq!((ticked.answer, ticked.lines), (3, 6));
    assert_eq!((h.classes[0].state, h.classes[0].esc_cnt), (TERMINAL, 0));
    assert_eq!((h.classes[1].state, h.classes[1].esc_cnt), (PHASE0 + 3, 2));
    assert_eq!((h.classes[2].state, h.classes[2].esc_cnt), (PHASE0, 1));
    assert_eq!((h.classes[3].state, h.classes[3].esc_cnt), (PHASE0 + 1, 1));
}
