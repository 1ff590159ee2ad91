//! What a tick weighs, and what is left of ticks that are folded.
use super::alerts::Alerts;
use super::cell::Cell;
use super::held::Held;
use super::weight::Weight;
use super::{drawn, picture, Opened};
use crate::facts::played::{pinging, played, records};
use crate::facts::tick::Tick;
use crate::output::Failure;
use crate::range::Range;
use crate::style::Style;
use crate::trace::Start;
use handler::{Edition, Handler, Place};

/// The cells of a text's ticks, without `alerts`.
fn cells(text: &str) -> Vec<Cell> {
    let new = Handler::new(3).0;
    let mut last = Alerts::new(&Tick::before_first(Edition::NEWEST, new));
    let cell = |tick: Tick| {
        let cell = Cell::new(&tick, &last);
        last = cell.alerts.clone();
        cell
    };
    played(new, text).into_iter().map(cell).collect()
}

/// The picture of a text's ticks.
fn picture_of(handler: Handler, text: &str) -> String {
    let start = Start {
        edition: Edition::NEWEST,
        n: Some(handler.n as u8),
    };
    let trace = Opened {
        name: "t",
        start,
        bytes: None,
    };
    let drawn = drawn(
        &trace,
        handler,
        &mut &records(handler, text)[..],
        Range::ALL,
        &Style::PLAIN,
    );
    match drawn {
        Ok(drawn) => picture::draw(&drawn),
        Err(Failure::Source(why)) => panic!("{why}"),
        Err(Failure::Write(e)) => panic!("{e}"),
    }
}

#[test]
fn what_matters_weighs_more() {
    let all = cells(
        "none
        write ALERT0_EN 1
        write ALERT0_EN 1
        read ALERT0_EN
        none wires 1=10
        none wires 1=10
        none wires 1=10
        none wires 2=11
        none
        none
        none
        write ALERT0_EN 2
        read CLASSA_CLR
        write ALERT2_REGWEN 0
        write CLASSA_CLR 0
        write CLASSA_CLR 1
        none wires 0=10
        write CLASSA_CTRL 0x393d
        write CLASSA_CTRL 0x393d
        write CLASSA_CTRL 1
        read CLASSA_CTRL
        none wires 0=10",
    );
    use Weight::*;
    let wanted = [
        Calm, Write, Write, Read, Alert, Handshake, Calm, Alert, Alert, Handshake, Calm, Change,
        Change, Write, Write, Turn, Change, Alert, Write, Write, Change, Turn,
    ];
    let weights: Vec<Weight> = all.iter().map(|cell| cell.weight).collect();
    assert_eq!(weights, wanted);
}

#[test]
fn a_fold_keeps_what_counts() {
    let all = cells(
        "read 3
        none wires 0=10 2=11
        none wires 1=10 2=11
        write ALERT0_EN 1 wires 2=11",
    );
    let of = |from: usize, to: usize| {
        let run = all[from..to].iter().cloned();
        run.reduce(Cell::joined).expect("a cell")
    };
    for fold in [
        of(0, 4),
        of(0, 1).joined(of(1, 4)),
        of(0, 3).joined(of(3, 4)),
    ] {
        assert_eq!((fold.first, fold.last, fold.ticks()), (1, 4, 4));
        assert!(fold.is_fold() && fold.units() == 2);
        assert_eq!(fold.weight, Weight::Change);
        assert_eq!((fold.accesses.count, fold.accesses.refused), (2, 1));
        assert!(fold.accesses.one.is_none());
        assert_eq!(fold.alerts.count, 2);
        assert_eq!(fold.alerts.broken.some[0], 1 << 61);
        assert_eq!(fold.alerts.broken.all[0], 0);
        assert_eq!(fold.alerts.raised.some[0], 0b11 << 62);
        assert_eq!(fold.alerts.disabled[0], 0b11 << 62);
        assert_eq!(fold.states[0].value(), Some(0));
    }
    assert_eq!(of(1, 4).alerts.broken.all[0], 1 << 61);
}

/// A place is steady where it is the same in all ticks of a fold, and nothing hides that it moved.
#[test]
fn a_fold_knows_where_receivers_stood() {
    let all = cells(
        "none wires 0=10
        none wires 0=10
        none wires 0=10
        none
        none
        none
        none",
    );
    let places: Vec<Option<Place>> = all.iter().map(|cell| cell.alerts.place(0)).collect();
    use Place::*;
    let wanted = [
        Ready,
        Acknowledged,
        Acknowledged,
        Acknowledged,
        FirstPause,
        SecondPause,
        Ready,
    ];
    assert_eq!(places, wanted.map(Some));
    let of = |from: usize, to: usize| {
        let run = all[from..to].iter().cloned();
        run.reduce(Cell::joined).expect("a cell").alerts.place(0)
    };
    assert_eq!(of(1, 4), Some(Acknowledged));
    for (from, to) in [(0, 2), (3, 5), (4, 6), (5, 7), (0, 7)] {
        assert_eq!(of(from, to), None, "{from} to {to}");
    }
    assert!(all.iter().all(|cell| cell.alerts.place(1) == Some(Ready)));
}

/// A strip for each receiver that moves, a lane for each ping pair that does; where nothing does, neither, nor a sign for it.
#[test]
fn receivers_and_pings_are_drawn_where_they_move() {
    let new = Handler::new(3).0;
    let text = "none wires 0=10 1=10
        none wires 0=10 2=11
        none
        none
        none";
    let picture = picture_of(pinging(new, 1), text);
    for title in [
        "ALERT0: Acknowledged, ticks 2 to 3",
        "ALERT0: Pause 1, tick 4",
        "ALERT0: Pause 2, tick 5",
        "ALERT1: Acknowledged, tick 2",
        "ALERT1: Pause 1, tick 3",
        "ALERT1 ping: on, ticks 1 to 5",
    ] {
        assert!(
            picture.contains(&format!("<title>{title}</title>")),
            "{title}"
        );
    }
    for missing in ["ALERT0 ping", "ALERT2 ping", "<title>ALERT2: "] {
        assert!(!picture.contains(missing), "{missing}");
    }
    assert!(picture.contains(">acknowledged</text>"));
    let still = picture_of(new, "none wires 2=11\nnone");
    assert!(!still.contains(">acknowledged</text>") && !still.contains("class=\"ack\""));
}

#[test]
fn a_value_is_steady_where_it_is_the_same_in_all_ticks() {
    let [off, on] = [false, true].map(Held::new);
    assert_eq!(on.joined(on).value(), Some(true));
    let mixed = off.joined(on);
    for held in [
        mixed,
        mixed.joined(on),
        on.joined(mixed),
        mixed.joined(mixed),
    ] {
        assert_eq!(held.value(), None);
    }
}
