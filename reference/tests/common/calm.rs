//! Skips of calm ticks, their changes unpacked by hand, and classes that are
//! put where a skip shall find them.

use reference::class::{PHASE0, TIMEOUT};
use reference::{skip, Handler, Sample, Ticked};

/// What an entry holds that the skip must not touch.
pub const KEPT: u64 = 0xFEED_FACE_CAFE_BEEF;
/// EN and all line enables; line p is on in Phase p.
pub const EACH: u16 = 0x393D;
/// INTR_STATE and INTR_ENABLE of all classes.
pub const ALL: u8 = 0xF;

/// A change: the lines, line 0 lowest, and the tick.
pub type Change = (u8, u32);

/// Skips these ticks with a list of 24 entries; gives what came out and the
/// changes, and checks that the other entries stayed.
pub fn skipped(h: &mut Handler, sample: Sample, ticks: u32) -> (Ticked, Vec<Change>) {
    let mut list = [KEPT; 24];
    let ticked = skip(h, &sample.pos, &sample.neg, ticks, &mut list);
    let found = usize::try_from(ticked.answer).unwrap();
    assert!(list[found..].iter().all(|entry| *entry == KEPT));
    (
        ticked,
        list[..found].iter().map(|word| change(*word)).collect(),
    )
}

/// The changes alone.
pub fn changes(h: &mut Handler, sample: Sample, ticks: u32) -> Vec<Change> {
    skipped(h, sample, ticks).1
}

/// What the word of a change holds.
fn change(word: u64) -> Change {
    assert_eq!(word >> 32 & 0xFFF_FFFF, 0, "28 zeros");
    let first = (0..4).map(|e| (word >> (63 - e) & 1) as u8);
    let lines = first.enumerate().map(|(e, bit)| bit << e).sum();
    (lines, word as u32)
}

/// Puts class k into Phase p with this count and these lengths.
pub fn in_phase(h: &mut Handler, k: usize, p: u8, count: u32, lengths: [u32; 4]) {
    let class = &mut h.classes[k];
    (class.state, class.esc_cnt) = (PHASE0 + p, count);
    (class.ctrl, class.phase_cyc) = (EACH, lengths);
}

/// Puts class k into Timeout with this count, its interrupt set, so that it is
/// due.
pub fn in_timeout(h: &mut Handler, k: usize, count: u32, timeout: u32, lengths: [u32; 4]) {
    let class = &mut h.classes[k];
    (class.state, class.esc_cnt) = (TIMEOUT, count);
    (class.ctrl, class.phase_cyc) = (EACH, lengths);
    class.timeout_cyc = timeout;
    h.intr_state |= 1 << k;
}
