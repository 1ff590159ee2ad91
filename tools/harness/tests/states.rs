//! Refusal 7 exactly in its case, field by field, and that the comparison
//! finds what it is there to find.

use handler::registers::Setting;
use handler::{Access, Answer, Edition, Handler, Output, Sample, Ticked, Word, ALERTS};
use harness::bench::{load, Load};
use harness::calls::{handler_of, reference_of, told_apart, with_spare, Found};
use harness::compare::ANSWERS;
use harness::rng::Rng;
use harness::spoil::{Bit, Place, WAYS};
use harness::states::{try_all, Subject, Summary, PROVED};

thread_local! {
    /// A configured state of all alerts.
    static START: Handler = handler_of(&load(Edition::NEWEST, Load::Quiet, 1).first);
}

/// The same of n alerts.
fn state(n: usize) -> Handler {
    START.with(|start| Handler { n, ..*start })
}

/// What a tick of the library answers; a batch of no records says the same, an
/// older one only where the ping timer is off, and the oldest only of up to 64
/// alerts.
fn answer(state: &Handler) -> i64 {
    let given = state.tick(Access::Nothing, Sample::AT_REST);
    let (after, answer) = state.batch(Edition::NEWEST, &[], &mut []);
    assert_eq!((given.answer, after), (answer, *state));
    for older in [Edition::Alerts64, Edition::Alerts248] {
        let refused = state.n > older.alerts() || state.timer.is_on();
        let old = if refused { Answer(-7) } else { answer };
        assert_eq!(state.batch(older, &[], &mut []), (*state, old));
    }
    if answer.0 == -7 {
        assert_eq!(given.handler, *state);
        assert_eq!(given.output, Output::AT_REST);
    }
    answer.0
}

/// The most that a place may hold, where more can be kept.
fn most_of_more(place: Place) -> Option<u64> {
    let whole = u64::MAX >> (64 - place.kept());
    place.most().filter(|most| *most < whole)
}

#[test]
fn every_register_and_stage_over_its_field_gives_7() {
    let mut tried = 0;
    for n in [1, 64, 65, 192, 248] {
        for place in Place::all() {
            // Registers of all the bits that are kept have nothing over them.
            let most = match most_of_more(place) {
                Some(most) => most,
                None => continue,
            };
            let mut h = state(n);
            place.set(&mut h, most + 1);
            let over = if place.is_above(n) { 0 } else { -7 };
            assert_eq!(answer(&h), over, "{place}");
            place.set(&mut h, most);
            // The highest STATE is a phase and needs a count.
            let phase = matches!(place, Place::Class(_, Setting::State));
            assert_eq!(answer(&h), if phase { -7 } else { 0 }, "{place}");
            tried += 1;
        }
    }
    // Both interrupt registers, two of the ping timer's, 4 of 12 in a class,
    // all of the sources, and all stages: the timeout's, 7 of a class, 2 of a
    // source.
    assert_eq!(tried, 5 * (2 + 2 + 16 + 4 * 255 + 1 + 28 + 2 * 255));
}

#[test]
fn a_flipped_bit_over_a_field_gives_7() {
    for n in [9, 65, 248] {
        for place in Place::all() {
            for bit in 0..place.kept() {
                let mut h = state(n);
                let value = place.get(&h);
                place.set(&mut h, value ^ (1 << bit));
                let over = match place {
                    Place::N => h.n > ALERTS,
                    // The timer is off: no ping may be open.
                    Place::Receivers(Bit::Pending, word) => 64 * word + (63 - bit as usize) < n,
                    Place::Lines => bit < 4,
                    Place::Receivers(..) => false,
                    // All classes are Idle: the six other states are not one
                    // bit away or want a count, and a count another state.
                    Place::Class(_, Setting::State | Setting::EscCnt) => true,
                    _ => {
                        let now = place.get(&h);
                        !place.is_above(n) && place.most().map_or(false, |most| now > most)
                    }
                };
                assert_eq!(answer(&h), if over { -7 } else { 0 }, "{place} bit {bit}");
            }
        }
    }
}

#[test]
fn state_and_count_must_fit() {
    for k in 0..4 {
        for kept in 0..=255 {
            for count in [0, 1, 1 << 16, u32::MAX] {
                let mut h = state(3);
                h.classes[k].state = kept;
                h.classes[k].count = count;
                let fits = match kept {
                    0 | 3 => count == 0,
                    1 | 4..=7 => count != 0,
                    _ => false,
                };
                assert_eq!(answer(&h), if fits { 0 } else { -7 }, "{kept} {count}");
            }
        }
    }
}

#[test]
fn only_n_over_248_gives_7() {
    for n in 0..=248 {
        assert_eq!(answer(&state(n)), 0);
    }
    for n in [
        249,
        250,
        255,
        256,
        1 << 16,
        1 << 32,
        (1 << 32) + 1,
        1 << 63,
        usize::MAX,
    ] {
        assert_eq!(answer(&state(n)), -7);
    }
}

#[test]
fn both_sides_hold_the_same_state() {
    let mut rng = Rng::new(7);
    let places = Place::all();
    assert_eq!(places.len(), 3 + 8 + 6 + 16 + 4 * (12 + 7) + (4 + 2) * 255);
    let mut h = state(248);
    for _ in 0..100 {
        let values: Vec<u64> = places.iter().map(|_| rng.bits()).collect();
        for (place, value) in places.iter().zip(&values) {
            place.set(&mut h, *value);
        }
        // No place is another one's, and none is lost on the way.
        for (place, value) in places.iter().zip(&values) {
            let kept = value & (u64::MAX >> (64 - place.kept()));
            assert_eq!(place.get(&h), kept, "{place}");
        }
        // Right or not is said of an open ping of a line alone.
        let right = told_apart(h).links.right;
        let mut wanted = h;
        wanted.links.right = right;
        let mut got = with_spare(handler_of(&reference_of(&h)), &h);
        got.links.right = told_apart(got).links.right;
        assert_eq!(got, wanted);
    }
}

#[test]
fn every_way_gives_what_it_is_for() {
    let mut summary = Summary::default();
    assert!(try_all(&PROVED, 1, 30_000, &mut summary).is_none());
    assert_eq!(summary.refused() + summary.accepted(), 30_000);
    for ((_, name), [refused, accepted]) in WAYS.iter().zip(summary.ways) {
        let never = ["kept", "fitted", "staged", "threshold", "turn", "above"].contains(name);
        assert_eq!(refused == 0, never, "{name}");
        // Random bytes in every field do not keep the rule.
        assert_eq!(accepted == 0, ["random", "count"].contains(name), "{name}");
    }
    assert!(ANSWERS.iter().all(|number| summary.ticks[*number] > 100));
    for batches in summary.batches {
        assert!([0, 7, 8, 9].iter().all(|number| batches[*number] > 100));
    }
    assert!(summary.over > 1000);
    assert!(summary.older > 1000);
    // Every place with pings that are open and that open, on every pair of
    // wires.
    assert!(summary.met.least() > 0, "{}", summary.met);
    assert!(summary.heard[0] > 1000 && summary.heard[2] > 1000);
    assert!(summary.heard[1] > 100);
    let turns = &summary.turns;
    assert!(turns.on > 3000 && turns.begun > 10 && turns.alerts > 100);
    assert!(turns.lines.iter().all(|count| *count > 30), "{turns:?}");
    assert!(turns.none.iter().all(|count| *count > 10), "{turns:?}");
    let ended = turns.answered[0].iter().chain(&turns.escalated);
    let ended = ended.chain(turns.failed.iter().flatten());
    assert!(ended.clone().all(|count| *count > 20), "{turns:?}");
    // A line's ping is answered in the fourth tick after it opened, not before.
    assert_eq!(turns.answered[1][0], 0);
    assert!(turns.answered[1][1] > 20 && turns.far > 50, "{turns:?}");
    let rare = [
        &turns.again[..],
        &turns.by_access[..1],
        &turns.changed,
        &turns.answered[1][2..],
    ];
    let rare = rare.concat();
    assert!(rare.iter().all(|count| *count > 0), "{turns:?}");
}

/// What is found with a wrong subject.
fn found(subject: Subject) -> Found {
    let found = try_all(&subject, 1, 20_000, &mut Summary::default());
    let found = found.expect("a wrong subject is found");
    // The seed alone repeats it.
    let again = try_all(&subject, found.seed, 1, &mut Summary::default());
    assert_eq!(again.expect("repeats").odd.field, found.odd.field);
    found
}

#[test]
fn a_tick_that_takes_a_broken_state_is_found() {
    fn tick(mut h: Handler, access: Access, sample: Sample) -> Ticked {
        // Takes a cause of 2 and 3 for 0 and 1.
        h.locals.cause[6] &= !2;
        h.tick(access, sample)
    }
    let odd = found(Subject { tick, ..PROVED }).odd;
    assert_eq!(odd.call, "tick");
    assert!(["answer 7", "local 6 CAUSE"].contains(&odd.field.as_str()));
}

#[test]
fn a_tick_that_looks_at_unused_entries_is_found() {
    fn tick(h: Handler, access: Access, sample: Sample) -> Ticked {
        let mut all = h;
        all.n = all.n.max(248);
        let mut given = h.tick(access, sample);
        if all.tick(access, sample).answer == Answer(-7) {
            given.answer = Answer(-7);
        }
        given
    }
    assert_eq!(found(Subject { tick, ..PROVED }).odd.field, "answer 7");
}

#[test]
fn a_tick_that_tidies_unused_entries_is_found() {
    fn tick(h: Handler, access: Access, sample: Sample) -> Ticked {
        let mut given = h.tick(access, sample);
        if given.answer != Answer(-7) && h.n < 248 {
            given.handler.alerts.cause[247] = 0;
        }
        given
    }
    let odd = found(Subject { tick, ..PROVED }).odd;
    assert_eq!(odd.field, "alert 247 CAUSE");
}

/// A tick after which the stages of the classes are as before it, where the
/// access answers so.
fn keeps_stages(h: Handler, access: Access, sample: Sample, on: impl Fn(Answer) -> bool) -> Ticked {
    let mut given = h.tick(access, sample);
    if on(given.answer) {
        given.handler.stages.classes = h.stages.classes;
    }
    given
}

#[test]
fn a_read_that_keeps_the_stage_is_found() {
    fn tick(h: Handler, access: Access, sample: Sample) -> Ticked {
        let reads = matches!(access, Access::Read(_));
        keeps_stages(h, access, sample, |_| reads)
    }
    let odd = found(Subject { tick, ..PROVED }).odd;
    assert!(odd.field.starts_with("stage of class "), "{}", odd.field);
}

/// No word shows it: what is locked stays so.
#[test]
fn a_locked_write_that_keeps_the_stage_is_found() {
    fn tick(h: Handler, access: Access, sample: Sample) -> Ticked {
        keeps_stages(h, access, sample, |answer| answer == Answer(-3))
    }
    let odd = found(Subject { tick, ..PROVED }).odd;
    assert!(odd.field.starts_with("stage of class "), "{}", odd.field);
}

/// No trace shows it: none locks such a class.
#[test]
fn a_lock_that_is_refused_on_a_locked_class_is_found() {
    fn tick(h: Handler, access: Access, sample: Sample) -> Ticked {
        let mut open = h;
        for class in &mut open.classes {
            class.regwen |= 1;
        }
        let mut given = h.tick(access, sample);
        if open.tick(access, sample).answer == Answer(-14) {
            given.answer = Answer(-14);
        }
        given
    }
    assert_eq!(found(Subject { tick, ..PROVED }).odd.field, "answer");
}

#[test]
fn a_tick_that_takes_a_stage_over_its_field_is_found() {
    fn tick(mut h: Handler, access: Access, sample: Sample) -> Ticked {
        h.stages.locals.en[3] = h.stages.locals.en[3].min(2);
        h.tick(access, sample)
    }
    let odd = found(Subject { tick, ..PROVED }).odd;
    let fields = ["answer 7", "stage of local 3 EN"];
    assert!(fields.contains(&odd.field.as_str()), "{}", odd.field);
}

#[test]
fn a_batch_that_writes_a_later_word_is_found() {
    fn batch(h: Handler, e: Edition, bytes: &[u8], out: &mut [Word]) -> (Handler, Answer) {
        let given = h.batch(e, bytes, out);
        if let Some(word) = out.get_mut(bytes.len() / e.bytes()) {
            *word = Word(0);
        }
        given
    }
    let odd = found(Subject { batch, ..PROVED }).odd;
    assert_eq!(odd.call, "batch");
    assert!(odd.field.starts_with("word "));
}

#[test]
fn a_tick_that_changes_what_is_no_alert_is_found() {
    fn tick(h: Handler, access: Access, sample: Sample) -> Ticked {
        let mut given = h.tick(access, sample);
        given.handler.links.receivers.level[3] |= 1;
        given
    }
    let odd = found(Subject { tick, ..PROVED }).odd;
    assert_eq!(odd.field, "receivers' level, word 3");
}

#[test]
fn an_old_batch_that_runs_on_65_alerts_is_found() {
    fn batch(h: Handler, e: Edition, bytes: &[u8], out: &mut [Word]) -> (Handler, Answer) {
        let mut few = h;
        if e == Edition::Alerts64 && h.n == 65 {
            few.n = 64;
        }
        let (after, answer) = few.batch(e, bytes, out);
        (Handler { n: h.n, ..after }, answer)
    }
    assert_eq!(found(Subject { batch, ..PROVED }).odd.field, "answer 7");
}

#[test]
fn an_older_batch_that_runs_with_the_timer_on_is_found() {
    fn batch(h: Handler, e: Edition, bytes: &[u8], out: &mut [Word]) -> (Handler, Answer) {
        let mut off = h;
        if e == Edition::Alerts248 {
            off.timer.enable &= !1;
        }
        let (mut after, answer) = off.batch(e, bytes, out);
        after.timer.enable = h.timer.enable;
        (after, answer)
    }
    assert_eq!(found(Subject { batch, ..PROVED }).odd.field, "answer 7");
}
