//! Rows fit.
use super::{row, wide_row, HEADER, WIDTH};
use crate::facts::played::{pinging, played};
use crate::facts::tick::Tick;
use crate::style::Style;
use crate::trace::record;
use handler::registers::Naming;
use handler::{Access, Edition, Handler, Sample, Wires, Word, ALERTS, WORDS};

/// A state as wide as any: all classes counting, every cause set, hundreds of stages open.
fn widest(before: Handler) -> Handler {
    let mut after = before;
    after.alerts.cause = [1; ALERTS];
    after.locals.cause = [1; 7];
    for c in &mut after.classes {
        (c.state, c.count, c.accum) = (1, 999_999, u16::MAX);
    }
    after.stages.alerts.en = [2; ALERTS];
    after.stages.alerts.class = [4; ALERTS];
    if before.timer.is_on() {
        // The next turn, with the longest wait.
        (after.links.turn.number, after.links.turn.count) = (1, u16::MAX);
    }
    after
}

/// A state whose registers are all locked.
fn locked(mut h: Handler) -> Handler {
    h.alerts.regwen = [0; ALERTS];
    h.locals.regwen = [0; 7];
    for c in &mut h.classes {
        (c.regwen, c.clrwen) = (0, 0);
    }
    h
}

/// A state whose receivers stand at all four places, and no neighbours at one.
fn shaken(mut h: Handler) -> Handler {
    h.links.receivers.pausing = [0x3333_3333_3333_3333; WORDS];
    h.links.receivers.busy = [0x6666_6666_6666_6666; WORDS];
    h
}

/// A state whose last alert has a ping open, which fails, and whose receivers are not ready.
fn pinged(h: Handler) -> Handler {
    let mut h = shaken(h);
    h.timer.enable = 1;
    h.links.turn.alert = 247;
    h.links.receivers.pending = [0, 0, 0, 1 << 8];
    h
}

/// The tick of a record that begins with these bits; every alert is off rest, and no neighbours are at the same levels.
fn tick(edition: Edition, before: Handler, first: u64) -> Tick {
    let mut bytes = vec![0; edition.bytes()];
    let first = first << (62 - edition.register_bits()) | u64::from(u32::MAX);
    bytes[..8].copy_from_slice(&first.to_be_bytes());
    bytes[8..8 + edition.wire_bytes()].fill(0xAA);
    let mut words = [Word::default()];
    before.batch(edition, &bytes, &mut words);
    Tick {
        number: 1,
        edition,
        input: record::input(edition, &bytes),
        record: bytes,
        before,
        after: widest(before),
        heard: before.hear(Access::Nothing, Sample::AT_REST),
        last: Word::default(),
        last_wires: Wires::REST,
        word: Word(words[0].0 | 0xFF << 56 | u64::from(u32::MAX)),
    }
}

/// Rows of 70 bytes are those of 75 without the timer, those of the edition `Pings` those of the newest without the lines' pairs.
#[test]
fn the_widest_row_fits() {
    for edition in [Edition::Alerts64, Edition::Wires] {
        let open = Handler::new(edition.alerts()).0;
        let timed = edition.has_timer().then(|| pinged(open));
        for before in [open, locked(open), shaken(open)].into_iter().chain(timed) {
            for first in 0..4 << edition.register_bits() {
                let mut tick = tick(edition, before, first);
                for number in [1, 9_999_999_999] {
                    tick.number = number;
                    for naming in [Naming::Ours, Naming::Papers] {
                        let names = naming == Naming::Papers;
                        let style = Style {
                            naming,
                            names,
                            ..Style::PLAIN
                        };
                        let text = row(&style, &tick);
                        assert!(text.len() <= WIDTH, "{} columns: {text}", text.len());
                    }
                }
            }
        }
    }
}

/// What stands in a text's rows from the causes' column on, in wide rows and in those of 120 columns.
fn ends(handler: Handler, text: &str) -> Vec<[String; 2]> {
    let end = |row: String| row.get(106..).unwrap_or("").to_string();
    let both = |t: &Tick| [wide_row(&Style::PLAIN, t), row(&Style::PLAIN, t)].map(end);
    played(handler, text).iter().map(both).collect()
}

/// From the tick after the rise up to the second tick of pause; equal wires hold the place. What has no room is counted.
#[test]
fn receivers_that_are_not_ready_are_named() {
    let text = "none wires 0=10 2=10
        none wires 2=10
        none wires 0=10
        none wires 0=11
        none wires 0=10
        none wires 0=10
        none";
    let wanted = [
        ["[disabled 0,2]", "[disabled 0,2]"],
        ["[ack 0,2]", "[ack 0,2]"],
        ["[ack 2] [pause1 0]", "^2"],
        ["[pause1 2] [pause2 0]", "^2"],
        ["[pause2 0,2]", "[pause2 0,2]"],
        ["[disabled 0]", "[disabled 0]"],
        ["[ack 0]", "[ack 0]"],
    ];
    assert_eq!(ends(Handler::new(3).0, text), wanted);
}

/// What stands in a text's rows after the last class.
fn notes(handler: Handler, text: &str) -> Vec<String> {
    let end = |t: &Tick| {
        let row = row(&Style::PLAIN, t);
        let (_, end) = row.rsplit_once("Idle").expect("an idle class");
        end.trim_start().to_string()
    };
    played(handler, text).iter().map(end).collect()
}

/// A ping is named while it is open, and in the tick in which it is answered or fails; a turn in the tick whose word sets it.
#[test]
fn pings_are_named() {
    let text = "none wires 0=10
        none wires 7=10 entropy 0x9
        none
        write PING_TIMEOUT_CYC 2
        write PING_TIMEOUT_CYC 2";
    let wanted = [
        "-1 [ping 7]",
        "[ack 0] [ping 7] [answer 7] [turn line 0 in 10]",
        "^2",
        "^2 [1 staged]",
        "[pause2 7]",
    ];
    assert_eq!(notes(pinging(Handler::new(9).0, 7), text), wanted);
}

/// Lines are pinged too; an alert that is not locked and enabled is not, and a ping may fail in a row of any width. A ping on a line is
/// a pulse on its pair, and four right answers are its answer.
#[test]
fn every_end_of_a_turn_is_named() {
    let text = "write PING_TIMER_EN 1 entropy 0x20000
        none entropy 0
        none sound
        none sound
        none sound
        none sound
        none sound entropy 0x10001
        write PING_TIMEOUT_CYC 1
        write PING_TIMEOUT_CYC 1
        write ALERT1_EN 1
        write ALERT1_EN 1 sound
        write ALERT1_REGWEN 0
        none entropy 0xffffffff
        none sound";
    let wanted = [
        "[turn 2 in 1]",
        "[unsent 2] [turn line 0 in 1]",
        "[esc 0] [ping line 0]",
        "[ping line 0]",
        "[ping line 0]",
        "[ping line 0]",
        "[ping line 0] [answer line 0] [turn 1 in 2]",
        "[1 staged]",
        "[unsent 1] [turn line 1 in 1]",
        "[esc 1] [ping line 1] [1 staged]",
        "[ping line 1] [fail line 1] [turn 0 in 1]",
        "[unsent 0] [turn line 2 in 1]",
        "[esc 2] [back 1: 01, not 10] [ping line 2]",
        "[ping line 2] [fail line 2] [turn 0 in 1]",
    ];
    assert_eq!(notes(Handler::new(3).0, text), wanted);
}

/// What came and what was right, also where nothing else happens; in a row without room how many lines they are.
#[test]
fn wrong_answers_are_named() {
    let text = "none receive 0=10
        none receive 0=11 3=00
        none receive 0-3=01";
    let wanted = [
        "[back 0: 10, not 01]",
        "[back 0: 11, not 01] [back 3: 00, not 01]",
        "",
    ];
    assert_eq!(notes(Handler::new(9).0, text), wanted);
    let all = played(Handler::new(9).0, "none receive 0-3=00");
    let row = row(&Style::PLAIN, &all[0]);
    assert!(row.ends_with(" Id !4"), "{row}");
}

#[test]
fn the_header_fits() {
    assert!(HEADER.len() <= WIDTH);
}
