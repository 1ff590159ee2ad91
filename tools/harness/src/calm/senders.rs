//! The lines' senders before a calm call: which of their states calls leave.

use crate::calls::{handler_senders, settle};
use crate::rng::Rng;
use crate::spoil::Sent;
use handler::{Handler, Senders, LINES};
use reference::Sender;

/// The states of one sender, by its five bits.
pub const STATES: usize = 32;

/// The five bits of line e's sender as a number.
pub fn number(senders: &Senders, e: usize) -> usize {
    let Senders {
        on,
        first,
        last,
        deep,
        answer,
    } = *senders;
    let fields = [on, first, last, deep, answer];
    let bits = fields.iter().enumerate();
    bits.map(|(at, field)| (*field as usize >> e & 1) << at)
        .sum()
}

/// The states that calls leave while the ping timer is off: those that a line
/// which goes on and off leads to, from a new one.
pub fn left_by_calls() -> [bool; STATES] {
    let mut left = [false; STATES];
    let mut open = vec![Sender::new()];
    while let Some(sender) = open.pop() {
        let mut all = [Sender::new(); LINES];
        all[0] = sender;
        let at = number(&handler_senders(&all), 0);
        if !std::mem::replace(&mut left[at], true) {
            open.extend([false, true].map(|on| {
                let mut next = sender;
                next.send(on, false);
                next
            }));
        }
    }
    left
}

/// Any bits, those from 4 up too, which count for nothing.
pub fn any(rng: &mut Rng, state: &mut Handler) {
    let above = rng.pick(&[0, 0, !15]);
    let mut bits = || rng.bits() as u32 & (15 | above);
    state.links.senders = Senders {
        on: bits(),
        first: bits(),
        last: bits(),
        deep: bits(),
        answer: bits(),
    };
    state.links.right = bits();
    state.links.lines = bits() & !15;
}

/// Senders as ticks can make them.
pub fn sound(rng: &mut Rng, state: &mut Handler) {
    any(rng, state);
    let senders = &mut state.links.senders;
    for field in Sent::ALL {
        *field.bits(senders) &= 15;
    }
    settle(&mut state.links);
}

/// Does the reference know these senders? It has no bits from 4 up, and counts
/// the answers to a pulse that no ping of a line has sent otherwise.
pub fn is_known(state: &Handler) -> bool {
    let mut settled = state.links;
    settle(&mut settled);
    let fields = Sent::ALL.map(|field| *field.bits(&mut settled.senders));
    settled == state.links && fields.iter().all(|bits| *bits < 16)
}

#[cfg(test)]
mod tests {
    use super::*;

    #[test]
    fn calls_leave_some_states() {
        let left = left_by_calls();
        let senders = |on, first, last, deep, answer| {
            let senders = Senders {
                on,
                first,
                last,
                deep,
                answer,
            };
            left[number(&senders, 0)]
        };
        // At rest, the first tick of a line, its later ticks, the second of a
        // lone one, and a line that comes on again right after that.
        assert!(senders(0, 0, 0, 0, 0) && senders(1, 1, 1, 0, 1));
        assert!(senders(1, 0, 1, 1, 0) && senders(1, 0, 1, 1, 1));
        assert!(senders(0, 0, 1, 1, 0) && senders(1, 1, 1, 1, 1));
        assert_eq!(left.iter().filter(|is| **is).count(), 6);
    }
}
