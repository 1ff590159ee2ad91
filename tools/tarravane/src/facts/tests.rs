//! The facts of many ticks of each edition, against what the library's counts, states and words say.
mod pairs;
mod timer;

use super::clears::{clear, Clear};
use super::events::{answers, bits, of_class, Source};
use super::lines::drives;
use super::locks::locked;
use super::receivers::{acknowledged, at, ping_levels};
use super::stages::{change, open, staged, Change};
use super::starts::{start, IDLE, TIMEOUT};
use super::tick::Tick;
use super::ticks::{called, Ticks};
use super::timer::pinged;
use super::wires::raised;
use crate::alert_bits::{alerts, below, count, is_set, put};
use crate::trace::record::written;
use handler::registers::{Field, Register, Setting, INTR_STATE};
use handler::{
    Access, Edition, Handler, Input, Place, Refusal, Sample, Wires, Word, CLASSES, WORDS,
};
use harness::configure::configure;
use harness::rng::Rng;

/// Alerts at the ends of words, which have all the events.
fn used(edition: Edition) -> [usize; 5] {
    match edition {
        Edition::Alerts64 => [0, 1, 31, 62, 63],
        _ => [0, 63, 64, 191, 247],
    }
}

/// The local alerts that occur in every edition.
const OCCURRING: [usize; 2] = [2, 5];

/// The numbers of the ping timer's registers, of which older editions have none.
const TIMER: [u16; 3] = [4, 5, 6];

/// A write that moves a handler on: enables, classes, thresholds, timeouts, clears and, seldom, locks.
fn write(rng: &mut Rng, edition: Edition) -> (u16, u32) {
    let (i, k) = (rng.pick(&used(edition)), rng.index(CLASSES));
    let ctrl = 0x3900 | rng.below(64) as u32;
    let map = edition.registers();
    let alert = |field| map.alert(field, i);
    let j = rng.pick(&[0, 1, 2, 3, 5]);
    let local = |field| map.local(field, j);
    let class = |setting| map.class(k, setting);
    let locks = [Setting::Regwen, Setting::ClrRegwen];
    let others = [alert(Field::Regwen), local(Field::Regwen), 1023];
    match rng.below(42) {
        0..=5 => (alert(Field::En), rng.pick(&[0, 1, 1, 1])),
        6..=8 => (alert(Field::Class), rng.below(4) as u32),
        9..=10 => (local(Field::En), rng.pick(&[0, 1, 1])),
        11 => (local(Field::Class), rng.below(4) as u32),
        12..=17 => (
            class(Setting::Ctrl),
            rng.pick(&[0x393F, 0x393D, ctrl, ctrl]),
        ),
        18..=20 => (class(Setting::AccumThresh), rng.below(4) as u32),
        21..=23 => (class(Setting::TimeoutCyc), rng.pick(&[0, 1, 5])),
        24..=27 => (class(rng.pick(&Setting::PHASES)), rng.below(4) as u32),
        28..=33 => (class(Setting::Clr), rng.pick(&[0, 1, 1, 1, 2])),
        34..=37 => (INTR_STATE, rng.below(16) as u32),
        38 => (class(rng.pick(&locks)), rng.below(2) as u32),
        39 => (rng.pick(&TIMER), rng.below(2) as u32),
        40 => (TIMER[1], rng.below(6) as u32),
        _ => (rng.pick(&others), rng.below(2) as u32),
    }
}

/// All at rest, or some alerts raised, with both wires up or as a good pair.
fn wires(rng: &mut Rng, edition: Edition) -> Wires {
    let mut wires = Wires::REST;
    let way = rng.below(4);
    if way == 0 {
        return wires;
    }
    for alert in used(edition) {
        let raised = rng.below(2) == 1;
        put(&mut wires.pos, alert, raised);
        put(&mut wires.neg, alert, !raised || way == 1);
    }
    wires
}

/// Wires; of the newer editions also a short wait of an alert that is used, and of the edition `Pings` lines that answer.
fn input(rng: &mut Rng, edition: Edition, access: Access) -> Input {
    let mut input = Input::new(access, Sample::of(wires(rng, edition)));
    if edition.has_timer() {
        let alert = rng.pick(&used(edition)) as u32;
        input.sample.word = alert << 16 | rng.below(4) as u32;
    }
    if edition == Edition::Pings {
        input.answers = (rng.bits() & rng.bits()) as u32 & 15;
    }
    input
}

/// Gives most records the right receive pairs, and every eighth any.
fn answer(rng: &mut Rng, edition: Edition, handler: Handler, bytes: &mut [u8]) {
    let mut h = handler;
    for record in bytes.chunks_mut(edition.bytes()) {
        let right = h.links.senders.right().byte();
        let any = rng.bits() as u8;
        record[edition.bytes() - 1] = if rng.once_in(8) { any } else { right };
        h = h.batch(edition, record, &mut [Word::default()]).0;
    }
}

/// A tick or two: nothing, or a write by what it takes; once in eight a second write differs, or a read comes before it.
fn accesses(rng: &mut Rng, edition: Edition) -> Vec<Access> {
    if rng.once_in(3) {
        return vec![Access::Nothing];
    }
    let (register, value) = write(rng, edition);
    let writes = configure(edition.registers(), register, value).into_iter();
    let mut all: Vec<Access> = writes.map(|(r, v)| Access::Write(r, v)).collect();
    match rng.below(16) {
        0 => all.truncate(1),
        1 => all[0] = Access::Write(register, value ^ 1),
        2 => all.insert(1, Access::Read(register)),
        _ => {}
    }
    all
}

fn inputs(rng: &mut Rng, edition: Edition) -> Vec<Input> {
    let mut all = Vec::new();
    while all.len() < TICKS {
        for access in accesses(rng, edition) {
            all.push(input(rng, edition, access));
        }
    }
    all.truncate(TICKS);
    all
}

/// The ticks of a handler.
const TICKS: usize = 600;

/// A new handler; of the newer editions the ping timer of most is on, and some alerts can be pinged.
fn handler(rng: &mut Rng, edition: Edition) -> Handler {
    let mut h = Handler::new(edition.alerts()).0;
    if edition.has_timer() && !rng.once_in(4) {
        let pinged = used(edition).into_iter().filter(|_| !rng.once_in(3));
        for i in pinged {
            (h.alerts.en[i], h.alerts.regwen[i]) = (1, 0);
        }
        (h.timer.enable, h.timer.timeout) = (1, rng.below(6) as u32);
    }
    h
}

/// Records, of which a few are malformed.
fn records(rng: &mut Rng, edition: Edition) -> Vec<u8> {
    let inputs = inputs(rng, edition);
    let mut bytes = written(edition, &inputs).expect("records");
    for record in bytes.chunks_mut(edition.bytes()) {
        // The last of the zero bits.
        record[3] |= u8::from(rng.once_in(30));
    }
    bytes
}

/// The ticks of fresh handlers of an edition, shown to a check.
fn each_of(edition: Edition, check: &mut dyn FnMut(&Tick)) {
    let mut rng = Rng::new(1);
    for _ in 0..200 {
        let mut bytes = records(&mut rng, edition);
        let handler = handler(&mut rng, edition);
        if edition.has_receive() {
            answer(&mut rng, edition, handler, &mut bytes);
        }
        let mut from = &bytes[..];
        let mut ticks = Ticks::new(&mut from, "t", edition, handler);
        while let Some(tick) = ticks.take().expect("a tick") {
            check(&tick);
        }
        assert_eq!((ticks.number(), ticks.cut()), (TICKS as u64, None));
    }
}

/// The account is of the very tick that the record runs: by call it has the same answer and pairs, and the same state where the
/// edition has receive pairs.
#[test]
fn what_is_heard_is_of_the_same_tick() {
    for edition in Edition::ALL {
        let (mut malformed, mut acknowledges, mut pings) = (0, 0, 0);
        each_of(edition, &mut |t| {
            let access = called(edition, t.input.access, t.word);
            let given = t.before.tick(access, t.input.sample);
            assert_eq!(given.answer, t.heard.answer);
            assert!(!edition.has_receive() || given.handler == t.after);
            let answer = t.word.refusal().map_or(Ok(t.word.value()), Err);
            assert_eq!(given.answer.value(), answer, "tick {}", t.number);
            let pairs = |pos: [u64; WORDS]| Wires {
                pos,
                neg: pos.map(|word| !word),
            };
            assert_eq!(given.output.acknowledge, pairs(acknowledged(t)));
            assert_eq!(given.output.ping, pairs(ping_levels(t)));
            malformed += u64::from(t.is_malformed());
            acknowledges += count(acknowledged(t));
            pings += count(ping_levels(t));
        });
        assert!(malformed > 1000 && acknowledges > 1000);
        assert_eq!(pings > 1000, edition.has_timer());
    }
}

/// A ready receiver takes a rise: as the answer to an open ping, else as an event.
#[test]
fn a_rise_that_is_taken_is_an_event_or_an_answer() {
    for edition in Edition::ALL {
        let (mut events, mut answered, mut waiting) = (0, 0, 0);
        each_of(edition, &mut |t| {
            let (ready, raised, pinged) = (at(t, Place::Ready), raised(t), pinged(t));
            for word in 0..WORDS {
                let taken = ready[word] & raised[word];
                assert_eq!(bits(t)[word], taken & !pinged[word], "tick {}", t.number);
                assert_eq!(answers(t)[word], taken & pinged[word], "tick {}", t.number);
                waiting += (raised[word] & !ready[word]).count_ones();
            }
            events += count(bits(t));
            answered += count(answers(t));
        });
        assert!(events > 1000 && waiting > 1000);
        assert_eq!(answered > 100, edition.has_timer(), "{answered}");
    }
}

/// Each alert below N stands at one place, the one that the state has for it.
#[test]
fn a_receiver_stands_at_one_place() {
    for edition in Edition::ALL {
        let mut seen = [0; 4];
        each_of(edition, &mut |t| {
            let places = [
                Place::Ready,
                Place::Acknowledged,
                Place::FirstPause,
                Place::SecondPause,
            ];
            for i in alerts(below(t.after.n)) {
                for (place, seen) in places.into_iter().zip(&mut seen) {
                    let stands = t.before.links.receivers.place(i) == place;
                    assert_eq!(is_set(&at(t, place), i), stands);
                    *seen += u64::from(stands);
                }
            }
        });
        assert!(seen.iter().all(|number| *number > 1000), "{seen:?}");
    }
}

/// EN is 1 and at least one line enable.
fn counts(t: &Tick, k: usize) -> bool {
    let ctrl = t.after.classes[k].ctrl;
    ctrl & 1 == 1 && ctrl & 0x3C != 0
}

#[test]
fn events_of_a_class_are_those_that_it_counts() {
    for edition in Edition::ALL {
        let (mut by_alerts, mut by_local) = (0, [0; 2]);
        each_of(edition, &mut |t| {
            for k in 0..CLASSES {
                let events = of_class(t, k);
                let (before, after) = (t.before.classes[k].accum, t.after.classes[k].accum);
                if clear(t, k) == Some(Clear::Accepted) {
                    assert_eq!(after, 0);
                } else {
                    let event = counts(t, k) && !events.is_empty();
                    assert_eq!(after, before + u16::from(event), "tick {}", t.number);
                    for (count, j) in by_local.iter_mut().zip(OCCURRING) {
                        *count += u64::from(event && events == [Source::Local(j)]);
                    }
                    by_alerts += u64::from(event && matches!(events[0], Source::Alert(_)));
                }
            }
        });
        assert!(
            by_alerts > 1000 && by_local[0] > 1000 && by_local[1] > 10,
            "{by_local:?}"
        );
    }
}

#[test]
fn a_start_is_by_a_trigger_or_by_the_timeout() {
    for edition in Edition::ALL {
        let (mut triggers, mut timeouts) = (0, 0);
        each_of(edition, &mut |t| {
            for k in 0..CLASSES {
                let (before, after) = (&t.before.classes[k], &t.after.classes[k]);
                let start = match start(t, k) {
                    Some(start) => start,
                    None => continue,
                };
                let triggered = !start.by.is_empty();
                let timed_out = before.state == TIMEOUT && before.count >= after.timeout;
                assert!(triggered || timed_out, "tick {}", t.number);
                assert!(triggered || before.state != IDLE);
                assert_eq!(start.locked, after.regwen == 0);
                assert!(!start.lock || after.clrwen == 0);
                triggers += u64::from(triggered);
                timeouts += u64::from(!triggered);
            }
        });
        assert!(triggers > 100 && timeouts > 100, "{triggers} {timeouts}");
    }
}

#[test]
fn a_line_is_on_where_a_class_drives_it() {
    for edition in Edition::ALL {
        let mut on = 0;
        each_of(edition, &mut |t| {
            for e in 0..4 {
                let driven = t.after.classes.iter().any(|class| drives(class, e));
                assert_eq!(driven, t.word.line(e), "tick {}", t.number);
                on += u64::from(driven);
            }
        });
        assert!(on > 1000);
    }
}

/// By a write of 0 each, and CLR_REGWEN also by a start under LOCK.
#[test]
fn each_lock_has_its_cause() {
    for edition in Edition::ALL {
        let (mut written, mut by_lock) = (0, 0);
        each_of(edition, &mut |t| {
            for register in locked(t) {
                if t.register() == Some(register) && matches!(t.input.access, Access::Write(_, 0)) {
                    written += 1;
                    continue;
                }
                let k = match register {
                    Register::Class(k, Setting::ClrRegwen) => k,
                    _ => panic!("tick {}: {register} is no CLR_REGWEN", t.number),
                };
                assert!(start(t, k).map_or(false, |start| start.lock));
                by_lock += 1;
            }
        });
        assert!(written > 100 && by_lock > 100, "{written} {by_lock}");
    }
}

/// Each change of a stage has its cause, and no stage opens or goes without one.
#[test]
fn each_stage_has_its_cause() {
    for edition in Edition::ALL {
        let mut seen = [0; 3];
        each_of(edition, &mut |t| {
            let [before, after] = [&t.before, &t.after].map(|h| open(h).len());
            let change = match change(t) {
                Some(change) => change,
                None => {
                    assert_eq!(before, after, "tick {}", t.number);
                    return;
                }
            };
            let register = t.register().expect("a register");
            seen[change as usize] += 1;
            match (change, t.input.access) {
                (Change::Staged, Access::Write(_, value)) => {
                    assert_eq!((before + 1, t.word.refusal()), (after, None));
                    assert_eq!(staged(&t.after, register), Some(value));
                }
                (Change::Committed, Access::Write(_, value)) => {
                    assert_eq!((before, t.word.refusal()), (after + 1, None));
                    assert_eq!(staged(&t.before, register), Some(value));
                }
                (Change::Dropped, Access::Read(_)) => assert_eq!(before, after + 1),
                (Change::Dropped, Access::Write(..)) => {
                    assert_eq!(before, after + 1);
                    let refusal = t.word.refusal().expect("a refusal");
                    assert!([Refusal::LOCKED, Refusal::DIFFERS].contains(&refusal));
                }
                other => panic!("tick {}: {other:?}", t.number),
            }
        });
        assert!(seen.iter().all(|count| *count > 100), "{seen:?}");
    }
}
