//! Beyond what plain ticks reach: two calls, of m and of n ticks, give what one
//! call of m + n gives.

use super::beside::{call, enough, exact_odd, Given};
use super::met::{Kind, Met};
use super::start::Start;
use super::subject::Calm;
use crate::calls::Odd;
use crate::rng::Rng;
use handler::{Answer, Calmed, Change, Output, CHANGES};

/// What one call is held against.
const TWO: &str = "two calls";

/// Ticks from which changes are far.
const FAR: u32 = 1 << 31;

/// The changes that a call lists.
fn changes(given: &Given) -> Vec<Change> {
    let count = given.calmed.answer.0.clamp(0, CHANGES as i64);
    given.list.first(count as usize).to_vec()
}

/// The ticks of the first call and of the second, often at a change or beside
/// one, at most 4294967295 together.
fn parts(changes: &[Change], rng: &mut Rng) -> (u32, u32) {
    let few = rng.below(60) as u32;
    let near = match changes.is_empty() {
        true => few,
        false => rng.pick(changes).tick(),
    };
    let [before, after] = [near.saturating_sub(1), near.saturating_add(1)];
    let any = rng.bits() as u32;
    let m = rng.pick(&[0, 1, few, near, near, before, after, FAR, any, u32::MAX]);
    let left = u32::MAX - m;
    let any = (u64::from(rng.bits() as u32) % (u64::from(left) + 1)) as u32;
    (m, rng.pick(&[0, 1, few, left, left, any]).min(left))
}

/// What two calls give together; of a second one without ticks nobody asks for
/// the pairs.
fn added(first: &Given, second: &Given, one: &Given, (m, n): (u32, u32)) -> Option<Given> {
    let mut all = changes(first);
    let later = |change: Change| Change(change.0 + u64::from(m));
    all.extend(changes(second).into_iter().map(later));
    if all.len() > CHANGES {
        return None;
    }
    let output = second.calmed.output;
    let calmed = Calmed {
        handler: second.calmed.handler,
        answer: Answer(first.calmed.answer.0 + second.calmed.answer.0),
        output: match n {
            0 => Output {
                interrupts: output.interrupts,
                lines: output.lines,
                ..one.calmed.output
            },
            _ => output,
        },
    };
    // The entries behind the changes are those that were lent.
    let list = first.list.clone().with(&all);
    Some(Given { calmed, list })
}

/// One call beside two, from a state that is not refused; the ticks of the one.
pub fn joined(calm: Calm, start: &Start, rng: &mut Rng, met: &mut Met) -> Option<(u32, Odd)> {
    let list = enough(rng);
    let known = changes(&call(calm, start, u32::MAX, &list));
    let (m, n) = parts(&known, rng);
    let first = call(calm, start, m, &list);
    let then = Start {
        state: first.calmed.handler,
        ..*start
    };
    let second = call(calm, &then, n, &list);
    let one = call(calm, start, m + n, &list);
    for change in changes(&one) {
        met.note(Kind::AtTheJoin, change.tick() == m);
        met.note(Kind::AfterTheJoin, change.tick() == m.wrapping_add(1));
        met.note(Kind::FarChange, change.tick() > FAR);
    }
    met.note(Kind::NoneFirst, m == 0);
    met.note(Kind::NoneSecond, n == 0 && m > 0);
    met.note(Kind::MostTicks, n > 0 && m + n == u32::MAX);
    let odd = match added(&first, &second, &one, (m, n)) {
        Some(wanted) => exact_odd(TWO, &wanted, &one),
        None => Some(Odd::new(TWO, "changes of both", "at most 20", "more")),
    };
    odd.map(|odd| (m + n, odd))
}
