//! One call on both sides, and the first thing that differs.

use super::heard::heard;
use super::lists::Lists;
use super::subject::Subject;
use super::summary::Summary;
use crate::calls::{
    access, aimed, handler_of, reference_access, reference_edition, reference_of, reference_sample,
    sample, settle, with_spare, Odd,
};
use crate::rng::Rng;
use handler::registers::PING_ENABLE;
use handler::{Access, Edition, Handler, Heard, Ticked};

/// The answer to a state that breaks the rule.
const BROKEN: i64 = -7;

/// One tick on both sides, and what it hears.
pub fn tick(
    subject: &Subject,
    state: &Handler,
    rng: &mut Rng,
    summary: &mut Summary,
) -> Option<Odd> {
    let access = match rng.once_in(8) {
        true => aimed(state, rng),
        false => access(rng),
    };
    let sample = sample(state, rng);
    let given = (reference_access(access), reference_sample(&sample));
    let mut twin = reference_of(state);
    let valid = twin.valid();
    let hears = heard(&twin, given.0, &given.1);
    let before = twin.clone();
    let wanted = twin.tick(given.0, &given.1);
    if valid {
        summary.met.tick(&before, &twin, &given.1);
        summary.hears(&hears);
        summary.turns.tick(&before, &twin, &given.1);
        if let (Access::Write(PING_ENABLE, value), 0) = (access, wanted.answer) {
            summary.turns.enabled(&before, value);
        }
        summary.ticks[wanted.answer.min(0).unsigned_abs() as usize] += 1;
    }
    let got = (subject.tick)(*state, access, sample);
    let sevens = [!valid, got.answer.0 == BROKEN].map(i64::from);
    Odd::first("tick", &[("answer 7", sevens[0], sevens[1])])
        .or_else(|| ticked_odd(&wanted, &got))
        .or_else(|| {
            let wanted = with_spare(handler_of(&twin), state);
            Odd::state("tick", &wanted, &got.handler)
        })
        .or_else(|| hear_odd(&hears, &(subject.hear)(*state, access, sample)))
}

/// What a tick gives otherwise than the reference, the state apart.
fn ticked_odd(wanted: &reference::Ticked, got: &Ticked) -> Option<Odd> {
    let out = &got.output;
    let numbers = [
        ("answer", wanted.answer, got.answer.0),
        (
            "interrupts",
            wanted.interrupts.into(),
            out.interrupts.into(),
        ),
        ("lines", wanted.lines.into(), out.lines.into()),
    ];
    Odd::first("tick", &numbers)
        .or_else(|| Odd::pairs("tick", "acknowledge", &wanted.acknowledge, &out.acknowledge))
        .or_else(|| Odd::pairs("tick", "ping", &wanted.ping, &out.ping))
        .or_else(|| {
            let (want, got) = (wanted.escalation, out.escalation);
            let wires = [
                ("escalation positive", want.pos.into(), got.pos.into()),
                ("escalation negative", want.neg.into(), got.neg.into()),
            ];
            Odd::first("tick", &wires)
        })
}

/// What is heard otherwise than the reference hears it.
fn hear_odd(wanted: &Heard, got: &Heard) -> Option<Odd> {
    let words = |name, wanted: [u64; 4], got: [u64; 4]| {
        let hex = |words| format!("{words:x?}");
        (wanted != got).then(|| Odd::new("hear", name, hex(wanted), hex(got)))
    };
    let locals = (wanted.locals as i64, got.locals as i64);
    Odd::first(
        "hear",
        &[
            ("answer", wanted.answer.0, got.answer.0),
            ("local alerts", locals.0, locals.1),
        ],
    )
    .or_else(|| words("events", wanted.events, got.events))
    .or_else(|| words("answered pings", wanted.answers, got.answers))
}

/// One to three small batches on both sides, each of any edition.
pub fn batches(
    subject: &Subject,
    state: &Handler,
    rng: &mut Rng,
    summary: &mut Summary,
) -> Option<Odd> {
    let mut state = *state;
    settle(&mut state.links);
    let count = rng.pick(&[1, 1, 3]);
    (0..count).find_map(|_| batch(subject, &mut state, rng, summary))
}

/// One batch; the state is then the one after it.
fn batch(
    subject: &Subject,
    state: &mut Handler,
    rng: &mut Rng,
    summary: &mut Summary,
) -> Option<Odd> {
    let edition = rng.pick(&Edition::ALL);
    let before = Lists::new(edition, rng);
    let mut lists = before.clone();
    let mut numbers = before.numbers();
    let mut twin = reference_of(state);
    let valid = twin.valid();
    let older = state.timer.is_on() && !edition.has_timer();
    let refused = !valid || state.n > edition.alerts() || older;
    let (bytes, words) = lists.lent();
    let wanted = reference::batch(&mut twin, reference_edition(edition), bytes, &mut numbers);
    let (after, answer) = (subject.batch)(*state, edition, bytes, words);
    summary.batch(edition, state, wanted, valid);
    let given = std::mem::replace(state, after);
    let got = answer.0;
    let pairs = [
        ("answer 7", i64::from(refused), i64::from(got == BROKEN)),
        ("answer", wanted, got),
    ];
    Odd::first("batch", &pairs)
        .or_else(|| word_odd(&numbers, &lists.numbers()))
        .or_else(|| {
            let field = lists.disturbed(&before)?;
            Some(Odd::new("batch", field, "as before", "changed"))
        })
        .or_else(|| {
            let wanted = with_spare(handler_of(&twin), &given);
            Odd::state("batch", &wanted, &after)
        })
}

/// The first word that differs; later words count too.
fn word_odd(wanted: &[u64], got: &[u64]) -> Option<Odd> {
    let at = (0..wanted.len()).find(|at| wanted[*at] != got[*at])?;
    Some(Odd::word("batch", at, wanted[at], got[at]))
}
