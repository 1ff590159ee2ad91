//! One calm call beside what it is to give, and the first thing that differs.

use super::list::List;
use super::plain::Plain;
use super::senders::is_known;
use super::start::Start;
use super::subject::Calm;
use crate::calls::{handler_of, reference_of, with_spare, Odd};
use crate::rng::Rng;
use handler::{Answer, Calmed, Change, Handler, LinePairs, Output, Wires, CHANGES};

/// What a call is held against.
pub const PLAIN: &str = "plain ticks";
pub const REFERENCE: &str = "the reference";

/// What a call gives, and the list that it leaves.
pub struct Given {
    /// State, answer and outputs.
    pub calmed: Calmed,
    /// The list.
    pub list: List,
}

/// A call on a list.
pub fn call(calm: Calm, start: &Start, ticks: u32, list: &List) -> Given {
    let mut list = list.clone();
    let calmed = calm(start.state, start.wires, ticks, list.lent());
    Given { calmed, list }
}

/// A list that is long enough, at times longer.
pub fn enough(rng: &mut Rng) -> List {
    let length = CHANGES + rng.pick(&[0, 0, 0, 1, 5]);
    List::of(length, rng)
}

/// The first output that differs.
fn output_odd(beside: &'static str, wanted: &Output, got: &Output) -> Option<Odd> {
    let numbers = |output: &Output| [output.interrupts, output.lines].map(i64::from);
    let ([i, l], [j, m]) = (numbers(wanted), numbers(got));
    let pairs = |name, wanted: &Wires, got: &Wires| {
        let wanted = reference::Pairs {
            pos: wanted.pos,
            neg: wanted.neg,
        };
        Odd::pairs(beside, name, &wanted, got)
    };
    let show = |pairs: LinePairs| format!("{:04b} {:04b}", pairs.pos, pairs.neg);
    Odd::first(beside, &[("interrupts", i, j), ("lines", l, m)])
        .or_else(|| pairs("acknowledge", &wanted.acknowledge, &got.acknowledge))
        .or_else(|| pairs("ping", &wanted.ping, &got.ping))
        .or_else(|| {
            let [wanted, got] = [wanted, got].map(|output| output.escalation);
            let odd = || Odd::new(beside, "escalation pairs", show(wanted), show(got));
            (wanted != got).then(odd)
        })
}

/// The first entry of the list that differs, guards included.
fn list_odd(beside: &'static str, wanted: &List, got: &List) -> Option<Odd> {
    let (at, wanted, got) = wanted.differs(got)?;
    let field = format!("entry {at}");
    let show = |change: Change| format!("{:016x}", change.0);
    Some(Odd::new(beside, field, show(wanted), show(got)))
}

/// The first thing that differs, the state apart.
pub fn given_odd(beside: &'static str, wanted: &Given, got: &Given) -> Option<Odd> {
    let answers = [wanted, got].map(|given| given.calmed.answer.0);
    Odd::first(beside, &[("answer", answers[0], answers[1])])
        .or_else(|| list_odd(beside, &wanted.list, &got.list))
        .or_else(|| output_odd(beside, &wanted.calmed.output, &got.calmed.output))
}

/// The same, and the state to the last bit.
pub fn exact_odd(beside: &'static str, wanted: &Given, got: &Given) -> Option<Odd> {
    given_odd(beside, wanted, got)
        .or_else(|| Odd::exact(beside, &wanted.calmed.handler, &got.calmed.handler))
}

/// A call beside the plain ticks that were run so far.
pub fn beside_plain(calm: Calm, start: &Start, plain: &Plain, list: &List) -> Option<Odd> {
    let got = call(calm, start, plain.ticks, list);
    let wanted = Given {
        calmed: Calmed {
            handler: plain.handler,
            answer: Answer(plain.answer()),
            output: plain.output,
        },
        list: list.clone().with(&plain.changes),
    };
    exact_odd(PLAIN, &wanted, &got)
}

/// What the reference gives, where it knows the senders of the state.
fn reference_given(start: &Start, ticks: u32, list: &List) -> Option<Given> {
    if !is_known(&start.state) {
        return None;
    }
    let mut twin = reference_of(&start.state);
    let mut list = list.clone();
    let mut words: Vec<u64> = list.lent().iter().map(|change| change.0).collect();
    let Wires { pos, neg } = start.wires;
    let ticked = reference::skip(&mut twin, &pos, &neg, ticks, &mut words);
    for (entry, word) in list.lent().iter_mut().zip(words) {
        entry.0 = word;
    }
    let pairs = |pairs: reference::Pairs| Wires {
        pos: pairs.pos,
        neg: pairs.neg,
    };
    let calmed = Calmed {
        handler: with_spare(handler_of(&twin), &start.state),
        answer: Answer(ticked.answer),
        output: Output {
            interrupts: ticked.interrupts.into(),
            lines: ticked.lines.into(),
            acknowledge: pairs(ticked.acknowledge),
            ping: pairs(ticked.ping),
            escalation: LinePairs {
                pos: ticked.escalation.pos.into(),
                neg: ticked.escalation.neg.into(),
            },
        },
    };
    Some(Given { calmed, list })
}

/// A call beside the reference's ticks; false where it does not know the
/// senders.
pub fn beside_reference(calm: Calm, start: &Start, ticks: u32, list: &List) -> (bool, Option<Odd>) {
    let wanted = match reference_given(start, ticks, list) {
        Some(wanted) => wanted,
        None => return (false, None),
    };
    let got = call(calm, start, ticks, list);
    let state = |given: &Given| -> Handler { given.calmed.handler };
    let odd = given_odd(REFERENCE, &wanted, &got)
        .or_else(|| Odd::state(REFERENCE, &state(&wanted), &state(&got)));
    (true, odd)
}
