//! The loads of the bench are what they say, and equal on both sides.

use handler::registers::{INTR_STATE, MAP};
use handler::{Edition, Lifecycle, ALERTS};
use harness::bench::{load, readable, time, time_boot, writable, Load, Made, Season, LOADS};
use harness::record::{Head, NONE, READ, WRITE};
use harness::turns::Turns;
use reference::trace::parse;
use reference::wires::wire;
use reference::{batch, installer, Handler, Place, Sample};
use std::collections::BTreeSet;

const NEWEST: Edition = Edition::NEWEST;
const FOURTH: reference::Edition = reference::Edition::Fourth;

/// A load's records one by one.
struct Played {
    first: Handler,
    last: Handler,
    heads: Vec<Head>,
    samples: Vec<Sample>,
    words: Vec<u64>,
    turns: Turns,
}

fn played(kind: Load, records: usize) -> Played {
    let Made { first, bytes } = load(NEWEST, kind, records);
    assert_eq!(bytes.len(), records * NEWEST.bytes());
    played_from(first, &bytes)
}

fn played_from(first: Handler, bytes: &[u8]) -> Played {
    let mut run = Played {
        last: first.clone(),
        first,
        heads: Vec::new(),
        samples: Vec::new(),
        words: Vec::new(),
        turns: Turns::default(),
    };
    for record in bytes.chunks_exact(NEWEST.bytes()) {
        let (before, mut word) = (run.last.clone(), [0]);
        let sample = parse(FOURTH, record).1;
        assert_eq!(batch(&mut run.last, FOURTH, record, &mut word), 0);
        run.turns.tick(&before, &run.last, &sample);
        run.heads.push(Head::of(NEWEST, record));
        run.samples.push(sample);
        run.words.push(word[0]);
    }
    run
}

impl Played {
    fn refused(&self) -> usize {
        let refused = |word: &&u64| *word >> 52 & 15 != 0;
        self.words.iter().filter(refused).count()
    }

    fn lines(&self) -> BTreeSet<u64> {
        self.words.iter().map(|word| word >> 56 & 15).collect()
    }

    fn kinds(&self) -> BTreeSet<u8> {
        self.heads.iter().map(|head| head.kind).collect()
    }

    fn registers(&self) -> BTreeSet<u16> {
        self.heads.iter().map(|head| head.register).collect()
    }

    fn is_quiet(&self) -> bool {
        let rests = |it: &Sample, i| !wire(&it.pos, i) && wire(&it.neg, i);
        let quiet = |it: &Sample| (0..ALERTS).all(|i| rests(it, i));
        self.samples.iter().all(quiet)
    }

    /// No local alert occurred: wires, answers and pings were sound.
    fn is_sound(&self) -> bool {
        self.last.locals.iter().all(|local| local.cause == 0)
    }
}

#[test]
fn quiet_wires_change_nothing() {
    let run = played(Load::Quiet, 500);
    assert!(run.is_quiet() && run.first == run.last);
    assert!(run.words.iter().all(|word| *word == 0));
    assert!(run.first.alerts.iter().all(|alert| alert.en == 1));
}

#[test]
fn sparse_events_are_whole_handshakes() {
    let run = played(Load::Sparse, 64 * 300);
    assert_eq!(run.kinds(), BTreeSet::from([NONE]));
    let counted: u32 = run
        .last
        .classes
        .map(|it| u32::from(it.accum_cnt))
        .iter()
        .sum();
    assert_eq!(counted, 300);
    assert!(run.is_sound() && run.lines() == BTreeSet::from([0]));
    assert!(run.last.alerts.iter().all(|alert| alert.cause == 1));
    let ready = |it: &reference::Receiver| it.place == Place::Ready;
    assert!(run.last.receivers.iter().all(ready));
    // The pair stays high until its acknowledgement is seen.
    let high = |it: &Sample| it.pos.iter().map(|word| word.count_ones()).sum::<u32>();
    let high: Vec<u32> = run.samples[..64].iter().map(high).collect();
    assert_eq!(high.iter().sum::<u32>(), 2);
    assert_eq!(high[..3], [1, 1, 0]);
}

#[test]
fn random_wires_have_events_and_equal_pairs() {
    let run = played(Load::Random, 500);
    assert!(run.last.alerts.iter().all(|alert| alert.cause == 1));
    assert!(run.last.classes.iter().all(|it| it.accum_cnt > 400));
    assert_eq!(run.last.locals[2].cause, 1);
    assert_eq!(run.last.locals[3].cause, 0);
}

#[test]
fn every_register_that_can_be_read_is_read() {
    let run = played(Load::Read, 20_000);
    assert_eq!(run.kinds(), BTreeSet::from([READ]));
    assert_eq!((run.refused(), run.is_quiet()), (0, true));
    assert_eq!(run.registers(), readable(MAP).into_iter().collect());
    // All but INTR_TEST and the four of CLR.
    assert_eq!(readable(MAP).len(), 2 + 3 + 4 * (7 + 248) + 4 * 12);
}

#[test]
fn every_write_is_accepted_and_no_class_leaves_idle() {
    let run = played(Load::Write, 30_000);
    assert_eq!(run.kinds(), BTreeSet::from([WRITE]));
    assert_eq!((run.refused(), run.is_quiet()), (0, true));
    assert_eq!(run.registers(), writable(MAP).into_iter().collect());
    assert_eq!(writable(MAP).len(), 3 + 3 + 4 * (7 + 248) + 4 * 10);
    let idle = |it: &reference::Class| it.state == 0 && it.accum_cnt == 0;
    assert!(run.last.classes.iter().all(idle));
    assert!(run.is_sound() && !run.last.timer.on());
    // Two of three are to shadowed registers, and by twos.
    let shadowed = |head: &&Head| {
        let register = MAP.register(head.register);
        register.map_or(false, |it| it.is_shadowed())
    };
    let writes: Vec<&Head> = run.heads.iter().filter(shadowed).collect();
    assert!((19_000..21_000).contains(&writes.len()), "{}", writes.len());
    let mut pairs = writes.chunks_exact(2);
    assert!(pairs.all(|two| two[0] == two[1]));
    // Values differ: what is enabled, and where it belongs.
    let enabled = run.last.alerts.iter().filter(|it| it.en == 1).count();
    assert!((50..200).contains(&enabled), "{enabled}");
}

#[test]
fn pings_run_and_all_are_answered() {
    let run = played(Load::Pings, 20_000);
    let turns = &run.turns;
    assert_eq!(turns.on, 20_000);
    assert!(turns.alerts > 60, "{}", turns.alerts);
    assert!(turns.lines.iter().all(|pings| *pings > 15), "{turns}");
    // One may be open before the first record, and one after the last.
    let [alerts, lines] = turns.answered.map(|of| of.iter().sum::<u64>());
    assert!(turns.alerts.abs_diff(alerts) <= 1, "{turns}");
    assert!(
        turns.lines.iter().sum::<u64>().abs_diff(lines) <= 1,
        "{turns}"
    );
    assert_eq!(turns.failed, [[0, 0], [0, 0]]);
    // Answers are no events.
    assert!(run.words.iter().all(|word| *word == 0) && run.is_sound());
    assert!(turns.longest < 256, "{}", turns.longest);
}

#[test]
fn an_escalation_has_all_lines_on_all_the_time() {
    let run = played(Load::Escalation, 1000);
    assert_eq!(run.lines(), BTreeSet::from([15]));
    assert!(run.is_sound());
    let locked = |it: &reference::Class| (it.regwen, it.clr_regwen) == (0, 0);
    assert!(run.last.classes.iter().all(locked));
    // The last of its four phases, which are passed one after another.
    assert!(run.last.classes.iter().all(|class| class.state == 7));
    assert_eq!(run.last.senders.map(|sender| sender.on), [true; 4]);
}

#[test]
fn a_season_boots_and_its_alerts_are_served() {
    let records = 60_000;
    let run = played(Load::Season, records);
    assert_eq!(run.first, Handler::new(ALERTS as u64).0);
    assert_eq!(run.refused(), 0);
    // The boot is the installer's, access by access, and so is what it leaves.
    let prod = Lifecycle::Prod.number();
    let boot = installer::accesses(prod).len();
    let bytes = Season::new(records).bytes(records);
    let booted = played_from(run.first.clone(), &bytes[..boot * NEWEST.bytes()]);
    assert_eq!(
        booted.last,
        reference::install(run.first.clone(), prod).handler
    );
    // Software clears what an alert sets; nothing is left, and nothing was wrong.
    let cleared = |head: &&Head| head.kind == WRITE && head.register == INTR_STATE;
    assert_eq!(run.heads.iter().filter(cleared).count(), 6);
    let asked = run.words.iter().filter(|word| *word >> 60 != 0).count();
    assert_eq!(asked, 6 * 104);
    assert!(run.is_sound() && run.lines() == BTreeSet::from([0]));
    assert!(run.last.alerts.iter().all(|alert| alert.cause == 0));
    assert_eq!((run.last.intr_state, run.last.timer.on()), (0, true));
}

/// A whole round leaves the state as it found it, but for the number of the turn
/// and the levels of the ping pairs: so each is as sound as the first.
#[test]
fn each_round_of_a_season_is_like_the_first() {
    let most = 1_000_000;
    let season = Season::new(most);
    let [start, round] = season.parts();
    assert!(start + 2 * round < most && season.bytes(most).len() == most * NEWEST.bytes());
    let bytes = season.bytes(start + 2 * round);
    let new = Handler::new(ALERTS as u64).0;
    let (before, rounds) = bytes.split_at(start * NEWEST.bytes());
    let begun = played_from(new, before).last;
    let (one, two) = rounds.split_at(round * NEWEST.bytes());
    assert!(one == two);
    let run = played_from(begun.clone(), rounds);
    assert_eq!(run.turns.failed, [[0, 0], [0, 0]]);
    assert!(run.turns.alerts > 0 && run.turns.lines.iter().all(|pings| *pings == 2));
    let [alerts, lines] = run.turns.answered.map(|of| of.iter().sum::<u64>());
    assert_eq!((alerts, lines), (run.turns.alerts, 8));
    let mut last = run.last;
    last.timer.number = begun.timer.number;
    for (is, was) in last.receivers.iter_mut().zip(&begun.receivers) {
        is.ping = was.ping;
    }
    assert!(last == begun);
}

#[test]
fn the_bench_compares_every_word_and_state() {
    for edition in Edition::ALL {
        for (kind, name) in LOADS.into_iter().filter(|it| it.0.is_of(edition)) {
            let Made { bytes, .. } = load(edition, kind, 1000);
            assert_eq!(bytes.len(), 1000 * edition.bytes());
            assert!(time(edition, kind, name, 1000).equal, "{name}");
        }
    }
    assert!(time_boot(58, 3).equal && time_boot(248, 3).equal);
}

#[test]
fn a_load_goes_by_its_name() {
    for (kind, name) in LOADS {
        assert_eq!(Load::named(name), Some(kind));
    }
    assert_eq!(Load::named("no such load"), None);
}
