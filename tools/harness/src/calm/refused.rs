//! What is refused, with lists of every length: nothing is changed.

use super::beside::{beside_reference, call, exact_odd, Given};
use super::list::List;
use super::start::Start;
use super::subject::Calm;
use super::summary::Summary;
use crate::calls::{reference_of, Odd};
use crate::rng::Rng;
use handler::{Answer, Calmed, Handler, Output, CHANGES};

/// What a refused call is held against.
const NOTHING: &str = "nothing done";

/// The refusal of a call, if it gets one: 7, 15, 18, in this order.
pub fn refusal(state: &Handler, length: usize) -> Option<i64> {
    if !reference_of(state).valid() {
        Some(7)
    } else if state.timer.is_on() {
        Some(15)
    } else if length < CHANGES {
        Some(18)
    } else {
        None
    }
}

/// Lists of 0 entries to one more than are needed, each with some number of
/// ticks; the ticks of the call that differs.
pub fn lists(
    calm: Calm,
    start: &Start,
    rng: &mut Rng,
    summary: &mut Summary,
) -> Option<(u32, Odd)> {
    (0..=CHANGES + 1).find_map(|length| {
        let number = refusal(&start.state, length)?;
        summary.refused(number, length);
        let any = rng.bits() as u32;
        let ticks = rng.pick(&[0, 0, 1, 5, any, u32::MAX]);
        let list = List::of(length, rng);
        let wanted = Given {
            calmed: Calmed {
                handler: start.state,
                answer: Answer(-number),
                output: Output::AT_REST,
            },
            list: list.clone(),
        };
        let got = call(calm, start, ticks, &list);
        let odd = exact_odd(NOTHING, &wanted, &got)
            .or_else(|| beside_reference(calm, start, ticks, &list).1);
        odd.map(|odd| (ticks, odd))
    })
}
