//! The wrapper hands over words and receive pairs, and gives back pairs and what is heard, each alert at its own bit.
use handler::registers::{Field, MAP};
use handler::{
    Access, Answer, Handler, Heard, LinePairs, LineReceivers, Output, Place, Receivers, Refusal,
    Sample, Turn, Whose, Wires, ALERTS, LINES, WORDS,
};
use harness::configure::configure;

const REST: Sample = Sample::AT_REST;
/// Both ends of each word, and the last alert.
const ALERTS_TRIED: [usize; 9] = [0, 1, 63, 64, 127, 128, 191, 192, 247];

/// The bit of alert i alone.
fn one(i: usize) -> [u64; WORDS] {
    let mut words = [0; WORDS];
    words[i / 64] = 1 << (63 - i % 64);
    words
}

/// The pair of alert i at (1,0), the others at (0,1).
fn high(i: usize) -> Wires {
    let pos = one(i);
    Wires {
        pos,
        neg: pos.map(|word| !word),
    }
}

/// A timer that is on, at this turn.
fn at_turn(number: u8, alert: usize, timeout: u32) -> Handler {
    let (mut h, _) = Handler::new(ALERTS);
    (h.alerts.en[alert], h.alerts.regwen[alert]) = (1, 0);
    (h.locals.en[0], h.locals.en[1]) = (1, 1);
    (h.timer.enable, h.timer.timeout) = (1, timeout);
    h.links.turn = Turn {
        number,
        alert: alert as u8,
        count: 0,
    };
    h
}

/// The handler after ticks without access.
fn after(h: Handler, samples: &[Sample]) -> Handler {
    let tick = |h: Handler, sample: &Sample| h.tick(Access::Nothing, *sample).handler;
    samples.iter().fold(h, tick)
}

#[test]
fn a_rise_is_acknowledged_in_the_next_tick() {
    for i in ALERTS_TRIED {
        let (h, _) = Handler::new(ALERTS);
        let rise = Sample::of(high(i));
        let t = h.tick(Access::Nothing, rise);
        assert_eq!(t.output, Output::AT_REST);
        let acknowledged = Output {
            acknowledge: high(i),
            ..Output::AT_REST
        };
        let dropped = t.handler.tick(Access::Nothing, REST);
        assert_eq!(dropped.output, acknowledged);
        let places = [
            (vec![rise], Place::Acknowledged),
            (vec![rise, REST], Place::FirstPause),
            (vec![rise, REST, REST], Place::SecondPause),
            (vec![rise, REST, REST, REST], Place::Ready),
        ];
        for (samples, place) in places {
            assert_eq!(after(h, &samples).links.receivers.place(i), place);
        }
    }
}

#[test]
fn a_ping_shows_at_once_and_stays() {
    for i in ALERTS_TRIED {
        let h = at_turn(0, i, 0);
        let t = h.tick(Access::Nothing, REST);
        let pinged = Output {
            ping: high(i),
            ..Output::AT_REST
        };
        assert_eq!(t.output, pinged);
        let open = Receivers {
            level: one(i),
            pending: one(i),
            ..Receivers::NEW
        };
        assert_eq!(t.handler.links.receivers, open);
        let next = t.handler.tick(Access::Nothing, REST);
        assert_eq!((next.output, next.handler.links.receivers), (pinged, open));
        assert_eq!(next.handler.links.turn.count, 1);
    }
}

/// The receive pairs that are right, the word one that sets the next turn.
fn sound(h: &Handler) -> Sample {
    Sample {
        receive: h.links.senders.right(),
        word: 0xAB_CDEF,
        ..REST
    }
}

#[test]
fn a_line_is_pinged_and_answered_on_its_own_pair() {
    for e in 0..LINES {
        let h = at_turn(2 * e as u8 + 1, 0, 9);
        assert_eq!(h.links.turn.whose(), Whose::Line(e));
        let mut receivers = LineReceivers::NEW;
        let mut state = h;
        for age in 0..=4 {
            assert_eq!(receivers.sends(), state.links.senders.right());
            let given = state.tick(Access::Nothing, sound(&state));
            let pulse = if age == 0 { 1 << e } else { 0 };
            assert_eq!(given.output.escalation, LinePairs::sound(pulse));
            let listened = receivers.listen(given.output.escalation);
            assert_eq!(listened.seen, 0);
            (receivers, state) = (listened.receivers, given.handler);
            assert_eq!(state.links.lines, if age < 4 { 1 << e } else { 0 });
        }
        let next = Turn {
            number: (2 * e as u8 + 2) % 8,
            alert: 0xAB,
            count: 0xCDEF,
        };
        assert_eq!(state.links.turn, next);
        let failed = after(h, &[REST; 9]);
        assert_eq!(failed.hear(Access::Nothing, REST).locals, 2);
    }
}

#[test]
fn a_wrong_receive_pair_is_heard() {
    for e in 0..LINES {
        let (mut h, _) = Handler::new(ALERTS);
        h.locals.en[3] = 1;
        for (pos, neg) in [(1 << e, 15), (0, 15 & !(1 << e)), (1 << e, 15 & !(1 << e))] {
            let receive = LinePairs { pos, neg };
            let heard = h.hear(Access::Nothing, Sample { receive, ..REST });
            assert_eq!(heard.locals, 8);
        }
        // Bits from 4 up count for nothing.
        let receive = LinePairs {
            pos: 0xFFF0,
            neg: 0xA5F,
        };
        let heard = h.hear(Access::Nothing, Sample { receive, ..REST });
        assert_eq!(heard.locals, 0);
    }
}

#[test]
fn equal_wires_are_an_escalation_at_once() {
    let listened = LineReceivers::NEW.listen(LinePairs { pos: 3, neg: 13 });
    assert_eq!((listened.receive, listened.seen), (LinePairs::REST, 1));
    let next = listened.receivers.listen(LinePairs::sound(2));
    assert_eq!(next.receive, LinePairs { pos: 2, neg: 12 });
    assert_eq!(next.seen, 2);
}

const SILENT: Heard = Heard {
    events: [0; WORDS],
    answers: [0; WORDS],
    locals: 0,
    answer: Answer(0),
};

#[test]
fn what_is_heard_is_told() {
    for i in ALERTS_TRIED {
        let (h, _) = Handler::new(ALERTS);
        let rise = Sample::of(high(i));
        let event = Heard {
            events: one(i),
            ..SILENT
        };
        assert_eq!(h.hear(Access::Nothing, rise), event);
        let answered = Heard {
            answers: one(i),
            ..SILENT
        };
        let pinged = at_turn(0, i, 1);
        assert_eq!(pinged.hear(Access::Nothing, rise), answered);
        assert_eq!(pinged.hear(Access::Nothing, REST), SILENT);
        let open = after(pinged, &[REST]);
        assert_eq!(open.hear(Access::Nothing, rise), answered);
        let failed = Heard {
            locals: 1,
            ..SILENT
        };
        assert_eq!(open.hear(Access::Nothing, REST), failed);
        assert_eq!(
            after(h, &[rise]).hear(Access::Nothing, rise),
            SILENT,
            "{i} is taken once"
        );
    }
}

#[test]
fn local_alerts_and_the_answer_are_told() {
    let (mut h, _) = Handler::new(1);
    let en = |register| configure(MAP, register, 1);
    let writes = [
        MAP.alert(Field::En, 0),
        MAP.local(Field::En, 2),
        MAP.local(Field::En, 5),
    ];
    for (register, value) in writes.into_iter().flat_map(en) {
        h = h.tick(Access::Write(register, value), REST).handler;
    }
    let class = MAP.alert(Field::Class, 0);
    h = h.tick(Access::Write(class, 1), REST).handler;
    let equal = Sample::of(Wires {
        pos: one(0),
        neg: [u64::MAX; WORDS],
    });
    let differs = Access::Write(class, 2);
    let heard = h.hear(differs, equal);
    assert_eq!((heard.locals, heard.answer), (1 << 2 | 1 << 5, Answer(-12)));
    let read = Access::Read(MAP.alert(Field::En, 0));
    assert_eq!(h.hear(read, REST).answer, Answer(1));
    let broken = Handler { n: 249, ..h };
    let heard = broken.hear(differs, equal);
    assert_eq!(heard.answer.value(), Err(Refusal(7)));
    assert_eq!(
        heard,
        Heard {
            answer: Answer(-7),
            ..SILENT
        }
    );
}
