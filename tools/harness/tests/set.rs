//! What the default set must reach, and that traces are what they say.

use handler::registers::Field;
use handler::{Edition, LinePairs, Wires, WORDS};
use harness::compare::{
    damage, expected, generated, Case, Coverage, ANSWERS, DEFAULT_SEED, DEFAULT_TRACES,
};
use harness::generate::{Kind, KINDS};
use harness::opened::opened;
use harness::record::{pack, Head, Tail, READ, WRITE};

fn reached(cases: impl Iterator<Item = Case>) -> Coverage {
    let mut coverage = Coverage::default();
    for case in cases {
        expected(&case.bytes(), &mut coverage);
    }
    coverage
}

/// What the default set of an edition reaches.
fn default_set(edition: Edition) -> Coverage {
    reached(generated(edition, DEFAULT_SEED).take(DEFAULT_TRACES as usize))
}

fn reaches_every_state_refusal_and_line(coverage: &Coverage) {
    for states in coverage.states {
        for state in [0, 1, 3, 4, 5, 6, 7] {
            assert!(states[state] > 1000, "state {state}");
        }
    }
    for number in ANSWERS {
        assert!(coverage.answers[number] > 1000, "refusal {number}");
    }
    let on = coverage.lines.into_iter().chain(coverage.interrupts);
    assert!(on.into_iter().all(|ticks| ticks > 1000));
    assert!(coverage.no_handler > 10 && coverage.cut > 30);
    assert!(coverage.full > 100 && coverage.locked_starts > 100);
}

/// Each family of shadow writes is there.
fn has_every_family_of_shadow_writes(coverage: &Coverage) {
    let of = &coverage.shadowed;
    for (family, count) in [
        ("staged", of.staged),
        ("equal", of.committed),
        ("differing", of.differing),
        ("differing, with local 5", of.occurred),
        ("read between", of.read),
        ("lock between", of.locked),
        ("too wide between", of.too_wide),
        ("interleaved", of.beside),
        ("open while the lock falls", of.under_lock),
    ] {
        assert!(count > 200, "{family}: {count}");
    }
    assert!(of.both > 10, "local 2 and local 5 at once: {}", of.both);
}

/// Each place of the handshake meets each pair of wires, and each family of handshakes is there.
fn has_every_family_of_handshakes(coverage: &Coverage) {
    let of = &coverage.handshakes;
    for place in 0..4 {
        for pair in 0..4 {
            let ticks = of.met.at(place, pair);
            assert!(ticks > 1000, "place {place} wires {pair}: {ticks}");
        }
    }
    for (family, count) in [
        ("taken", of.taken),
        ("waited", of.waited),
        ("gone in the pause", of.gone),
        ("equal wires at a due acknowledgement", of.due),
        ("equal wires at its drop", of.dropping),
    ] {
        assert!(count > 1000, "{family}: {count}");
    }
    assert!(of.enabled > 200, "enabled midway: {}", of.enabled);
}

/// What the ping timer meets: each line and edge, each way in which a turn ends.
fn has_every_family_of_pings(coverage: &Coverage) {
    let of = &coverage.turns;
    assert!(of.begun > 200 && of.on > 100_000 && of.alerts > 10_000);
    assert!(of.lines.iter().all(|count| *count > 5000), "{of:?}");
    assert!(of.again.iter().all(|count| *count > 200), "{of:?}");
    assert!(of.none.iter().all(|count| *count > 1000), "{of:?}");
    assert!(of.by_access.iter().all(|count| *count > 20), "{of:?}");
    let ends = of
        .answered
        .iter()
        .flatten()
        .chain(of.failed.iter().flatten());
    assert!(ends.clone().all(|count| *count > 300), "{of:?}");
    assert!(of.other_line > 5000 && of.stray > 5000, "{of:?}");
    assert!(of.changed.iter().all(|count| *count > 200), "{of:?}");
    assert!(of.waiting > 5000, "{of:?}");
    // Both ends of 16 bits.
    assert!(of.far > 2 && of.longest == u16::MAX, "{of:?}");
    // Every place of the handshake, with a ping that is open and one that opens.
    assert!(coverage.handshakes.met.least() > 10);
}

/// Each family of escalations, pings beside them and answers is there.
fn has_every_family_of_lines(coverage: &Coverage) {
    let (of, turns) = (&coverage.wired, &coverage.turns);
    assert!(of.checked > 1_000_000 && of.equal > 1000, "{of:?}");
    assert!(of.wrong.iter().all(|count| *count > 500), "{of:?}");
    assert!(of.lengths.iter().all(|count| *count > 1000), "{of:?}");
    assert!(of.gaps > 200, "{of:?}");
    // Not in the tick of a ping, nor a ping in it or right after it.
    assert!(
        of.after_ping[1..].iter().all(|count| *count > 100),
        "{of:?}"
    );
    assert!(
        of.before_ping[3..].iter().all(|count| *count > 100),
        "{of:?}"
    );
    assert!(of.before_ping[2] > 50, "{of:?}");
    assert!(turns.lines.iter().all(|count| *count > 3000), "{turns:?}");
    assert!(
        turns.escalated.iter().all(|count| *count > 400),
        "{turns:?}"
    );
    // In the fourth tick, some at a timeout of 4; none before.
    assert_eq!(turns.answered[1][0], 0);
    assert!(turns.answered[1][1] > 3000 && turns.answered[1][2] > 100);
    assert!(turns.failed[1].iter().all(|count| *count > 3000));
}

/// Each family of locks at 65534 and 65535 is there.
fn has_every_family_of_thresholds(coverage: &Coverage) {
    let of = &coverage.locking;
    for (family, count, least) in [
        ("65535", of.refused, 1000),
        ("65535 without a line", of.no_line, 100),
        ("a mending stage", of.mended, 100),
        ("65534", of.below, 10),
        ("EN off", of.en_off, 10),
        ("staged only", of.staged, 10),
        ("locked again", of.again, 100),
        ("other values", of.other_values, 100),
        ("other locks", of.other_locks, 100),
    ] {
        assert!(count > least, "{family}: {count}");
    }
}

/// Every alert has a cause in some trace, and every assigned register is accessed.
fn reaches_every_alert_and_register(edition: Edition, coverage: &Coverage) {
    let alerts: Vec<usize> = coverage.causes.iter().copied().collect();
    assert_eq!(alerts, (0..edition.alerts()).collect::<Vec<_>>());
    let map = edition.registers();
    let assigned: Vec<u16> = (0..u16::MAX)
        .filter(|n| map.register(*n).is_some())
        .collect();
    let own = coverage
        .registers
        .iter()
        .filter(|at| at.0 == edition.name());
    assert_eq!(own.map(|at| at.1).collect::<Vec<_>>(), assigned);
}

fn makes_every_move(coverage: &Coverage) {
    // Each arrow of step 4, and no other.
    let arrows = [
        (0, 4),
        (0, 1),
        (1, 4),
        (1, 0),
        (4, 5),
        (5, 6),
        (6, 7),
        (7, 3),
        (4, 0),
        (5, 0),
        (6, 0),
        (7, 0),
        (3, 0),
    ];
    for from in 0..8 {
        for to in 0..8 {
            let moves = coverage.moves[from][to];
            assert_eq!(moves > 100, arrows.contains(&(from, to)), "{from} {to}");
        }
    }
}

#[test]
fn the_default_set_of_old_records_reaches_all() {
    let coverage = default_set(Edition::Alerts64);
    reaches_every_state_refusal_and_line(&coverage);
    reaches_every_alert_and_register(Edition::Alerts64, &coverage);
    has_every_family_of_shadow_writes(&coverage);
    has_every_family_of_thresholds(&coverage);
    has_every_family_of_handshakes(&coverage);
    makes_every_move(&coverage);
    for n in [0, 1, 2, 7, 8, 9, 63, 64, 65] {
        assert!(coverage.counts.contains(&n), "N {n}");
    }
    each_alone(&coverage, &[0, 7, 8, 63]);
}

/// Both ends of each word or byte of wires, each alone in a tick.
fn each_alone(coverage: &Coverage, alerts: &[usize]) {
    for i in alerts {
        assert!(coverage.lone_events.contains(i), "event of {i}");
        assert!(coverage.lone_equal.contains(i), "equal wires of {i}");
    }
}

#[test]
fn the_default_set_of_new_records_reaches_all() {
    let coverage = default_set(Edition::Alerts248);
    reaches_every_state_refusal_and_line(&coverage);
    reaches_every_alert_and_register(Edition::Alerts248, &coverage);
    has_every_family_of_shadow_writes(&coverage);
    has_every_family_of_thresholds(&coverage);
    has_every_family_of_handshakes(&coverage);
    makes_every_move(&coverage);
    for n in [0, 1, 9, 64, 65, 127, 128, 191, 192, 247, 248, 249, 255] {
        assert!(coverage.counts.contains(&n), "N {n}");
    }
    each_alone(&coverage, &[0, 63, 64, 127, 128, 191, 192, 247]);
}

#[test]
fn the_default_set_of_records_with_pings_reaches_all() {
    let coverage = default_set(Edition::Pings);
    reaches_every_state_refusal_and_line(&coverage);
    reaches_every_alert_and_register(Edition::Pings, &coverage);
    has_every_family_of_shadow_writes(&coverage);
    has_every_family_of_thresholds(&coverage);
    has_every_family_of_handshakes(&coverage);
    has_every_family_of_pings(&coverage);
    makes_every_move(&coverage);
    each_alone(&coverage, &[0, 63, 64, 127, 128, 191, 192, 247]);
}

#[test]
fn the_default_set_of_records_with_receive_pairs_reaches_all() {
    let coverage = default_set(Edition::Wires);
    reaches_every_state_refusal_and_line(&coverage);
    reaches_every_alert_and_register(Edition::Wires, &coverage);
    has_every_family_of_shadow_writes(&coverage);
    has_every_family_of_thresholds(&coverage);
    has_every_family_of_handshakes(&coverage);
    has_every_family_of_lines(&coverage);
    each_alone(&coverage, &[0, 63, 64, 127, 128, 191, 192, 247]);
}

/// The numbers of accesses in sweeps of all the edition's alerts, refused or not.
#[test]
fn sweeps_go_to_both_ends_of_every_block() {
    for edition in Edition::ALL {
        let map = edition.registers();
        let sweeps = generated(edition, DEFAULT_SEED).filter(|case| case.kind == Kind::Sweep);
        let mut all = sweeps.take(40).map(|case| case.bytes());
        let most = all.find(|bytes| opened(bytes).alerts() == edition.alerts() as u64);
        let bytes = most.expect("one of all alerts");
        let records = opened(&bytes).records.chunks_exact(edition.bytes());
        let heads: Vec<Head> = records.map(|record| Head::of(edition, record)).collect();
        for field in Field::ALL {
            for i in [0, map.alerts - 1, usize::from(map.stride) - 1] {
                let number = map.alert(field, i);
                for kind in [READ, WRITE] {
                    let to = |head: &&Head| head.kind == kind && head.register == number;
                    assert!(heads.iter().find(to).is_some(), "{number}");
                }
            }
        }
    }
}

#[test]
fn short_traces_show_something_in_most_ticks() {
    for edition in Edition::ALL {
        let short = generated(edition, DEFAULT_SEED).filter(|case| case.kind != Kind::Full);
        let coverage = reached(short.take(300));
        // A read's value or a refusal, whatever the interrupts and lines show.
        let refused: u64 = coverage.answers[1..].iter().sum();
        assert!((coverage.reads + refused) * 100 > coverage.ticks * 70);
        assert!(coverage.showing * 100 > coverage.ticks * 80);
    }
}

#[test]
fn the_same_seed_gives_the_same_bytes() {
    for (kind, name) in KINDS {
        assert_eq!(Kind::named(name), Some(kind));
        assert_eq!(kind.name(), name);
        let bytes = |edition, seed| {
            let records = None;
            let case = Case {
                edition,
                kind,
                seed,
                records,
            };
            case.bytes()
        };
        for edition in Edition::ALL {
            assert_eq!(bytes(edition, 5), bytes(edition, 5));
            assert_ne!(bytes(edition, 5), bytes(edition, 6));
        }
        assert_ne!(bytes(Edition::Alerts64, 5), bytes(Edition::Alerts248, 5));
    }
}

#[test]
fn records_are_packed_as_the_paper_shows() {
    let hex = |edition, head| {
        let neg = std::array::from_fn(|w| u64::from(w == 0) << 63);
        let tail = Tail::new(0x1234_5678, 0xF4 | 1);
        let record = pack(edition, head, ([0; WORDS], neg), tail);
        let digits = record.iter().map(|byte| format!("{byte:02x}"));
        digits.collect::<String>()
    };
    for (register, kind, wanted) in [
        (
            321,
            READ,
            "541000000000000000000000000000008000000000000000",
        ),
        (
            1023,
            WRITE,
            "bff000000000000000000000000000008000000000000000",
        ),
    ] {
        assert_eq!(hex(Edition::Alerts64, Head::new(kind, register, 0)), wanted);
    }
    // Kind 2, register 1281, 19 zero bits.
    let head = Head::new(WRITE, 1281, 0x393D);
    let wanted = format!("a80800000000393d{}80{}", "00".repeat(31), "00".repeat(30));
    assert_eq!(hex(Edition::Alerts248, head), wanted);
    // Lines 0 and 2 are answered: bits 3 and 1 of the last byte.
    assert_eq!(hex(Edition::Pings, head), wanted.clone() + "123456780a");
    // Of line 0 (1,0), of line 1 (1,1), of line 2 (0,1), of line 3 (0,0).
    let receive = LinePairs { pos: 3, neg: 0xF6 };
    let neg = std::array::from_fn(|w| u64::from(w == 0) << 63);
    let tail = Tail::wired(0x1234_5678, receive);
    let record = pack(Edition::Wires, head, ([0; WORDS], neg), tail);
    let digits: String = record.iter().map(|byte| format!("{byte:02x}")).collect();
    assert_eq!(digits, wanted + "12345678b4");
}

#[test]
fn a_record_is_taken_apart_as_it_was_packed() {
    for edition in Edition::ALL {
        for head in [
            Head::new(READ, 1023, 0),
            Head::new(WRITE, 1 << (edition.register_bits() - 1), u32::MAX),
            Head {
                rest: 1 << (edition.zero_bits() - 1),
                ..Head::new(3, 1, 2)
            },
        ] {
            let wires = (Wires::REST.pos, Wires::REST.neg);
            let record = pack(edition, head, wires, Tail::new(u32::MAX, 15));
            assert_eq!(record.len(), edition.bytes());
            assert_eq!(Head::of(edition, &record), head);
        }
    }
}

#[test]
fn damaged_input_still_reaches_the_handler() {
    for edition in Edition::ALL {
        let coverage = reached(damage(edition, DEFAULT_SEED).take(DEFAULT_TRACES as usize));
        assert!(coverage.no_handler > 10 && coverage.cut > 100);
        let least = ANSWERS.map(|number| coverage.answers[number]).into_iter();
        assert!(least.min() > Some(200));
    }
}
