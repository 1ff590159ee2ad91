//! The ping timer of a state: its turn, and open pings.

use super::receiver::Bit;
use crate::rng::Rng;
use handler::{Handler, Whose, ALERTS, WORDS};

/// Timeouts at both ends and short ones.
const TIMEOUTS: [u32; 11] = [0, 0, 1, 2, 3, 4, 4, 7, 65534, 65535, 65535];

/// Any turn of a timer that is mostly on, its ping open, due or to come, and no
/// other ping open. The count is often near the timeout, since else nothing
/// would ever fail; the drawn alert is often locked and enabled.
pub fn fit_turn(rng: &mut Rng, state: &mut Handler) {
    let any = rng.bits() as u32;
    state.timer.enable = rng.pick(&[0, 1, 1, 1]);
    state.timer.timeout = rng.pick(&[&TIMEOUTS[..], &[any & 0xFFFF]].concat());
    let timeout = state.timer.timeout as u16;
    let turn = &mut state.links.turn;
    let number = rng.bits() as u8;
    turn.number = rng.pick(&[number, number, number & !1]);
    let near = [timeout, timeout.wrapping_sub(1), timeout.wrapping_sub(2)];
    // A line's ping is answered in the tick of which the count is 4.
    let counts = [
        0, 0, 0, 1, 2, 3, 3, 4, 65534, 65535, near[0], near[1], near[2],
    ];
    turn.count = rng.pick(&counts);
    let there = rng.index(state.n.clamp(1, ALERTS));
    let none = rng.pick(&[state.n.min(255), 248, 255]);
    turn.alert = rng.pick(&[there, there, there, there, none]) as u8;
    let drawn = usize::from(turn.alert).min(ALERTS - 1);
    let source = (state.alerts.regwen[drawn], state.alerts.en[drawn]);
    let source = rng.pick(&[source, (1, 1), (0, 1), (0, 1), (0, 1), (0, 1)]);
    (state.alerts.regwen[drawn], state.alerts.en[drawn]) = source;
    // Often a stage that the next write commits, near the count.
    let staged = rng.pick(&[0, 0, 1, 2, 3, u64::from(state.links.turn.count) + 1]);
    state.stages.timeout = staged;
    for j in [0, 1, 3] {
        state.locals.en[j] = rng.pick(&[0, 1, 1]);
    }
    state.links.right = rng.pick(&[0, 1, 1]);
    close_pings(state);
    if state.timer.is_on() && rng.once_in(2) {
        open_turn(state);
    }
}

/// No ping of an alert below N or of a line is open.
fn close_pings(state: &mut Handler) {
    let n = state.n;
    let pending = Bit::Pending.words(&mut state.links.receivers);
    for (w, word) in pending.iter_mut().enumerate() {
        let used = n.saturating_sub(64 * w) as u32;
        *word &= u64::MAX.checked_shr(used).unwrap_or(0);
    }
    state.links.lines &= !15;
}

/// The turn's ping is open; at N and above there is none.
fn open_turn(state: &mut Handler) {
    match state.links.turn.whose() {
        Whose::Line(e) => state.links.lines |= 1 << e,
        Whose::Alert(i) if i < state.n.min(ALERTS) => {
            state.links.receivers.pending[i / 64] |= 1 << (63 - i % 64);
        }
        Whose::Alert(_) => {}
    }
}

/// One ping open or a few, mostly not the turn's, of alerts, of lines or both;
/// the timer is on or off.
pub fn open_pings(rng: &mut Rng, state: &mut Handler) {
    fit_turn(rng, state);
    let pings = rng.pick(&[1, 1, 1, 2, 4]);
    for _ in 0..pings {
        let i = rng.index(64 * WORDS);
        match rng.below(3) {
            0 => state.links.lines |= 1 << rng.below(8),
            _ => state.links.receivers.pending[i / 64] |= 1 << (63 - i % 64),
        }
    }
}
