//! A batch of any edition is its ticks, and what it refuses it leaves.
use handler::registers::Map;
use handler::registers::{Field, Setting, INTR_ENABLE, PING_ENABLE, PING_REGWEN};
use handler::{
    Access, Answer, Edition, Handler, LinePairs, Refusal, Sample, Ticked, Turn, Wires, Word,
};
use harness::configure::configure;
use harness::record::{pack, record, Head, Tail, NONE, WRITE};

const RAISE: Wires = {
    let mut wires = Wires::REST;
    wires.pos[0] = 1 << 63;
    wires.neg[0] = u64::MAX >> 1;
    wires
};

fn made(n: usize) -> Handler {
    let (handler, answer) = Handler::new(n);
    assert_eq!(answer, Answer(0));
    handler
}

/// Kind, register of the edition, value: alert 0 raises class A's interrupt and a line, then reads, two of no register, and
/// writes that differ.
fn accesses(map: Map) -> [(u64, u16, u32); TICKS] {
    let write = |(register, value)| (2, register, value);
    let en = configure(map, map.alert(Field::En, 0), 1);
    let ctrl = configure(map, map.class(0, Setting::Ctrl), 0x393F);
    let writes = [en, ctrl, vec![(INTR_ENABLE, 1)]].concat();
    let thresh = map.class(0, Setting::AccumThresh);
    let others = [
        (0, 0, 0),
        (1, map.alert(Field::Cause, 0), 0),
        (1, map.class(0, Setting::State) + 1, 0),
        (1, 1023, 0),
        (2, thresh, 2),
        (2, thresh, 3),
    ];
    let all: Vec<_> = writes.into_iter().map(write).chain(others).collect();
    all.try_into().expect("as many ticks")
}

/// Kind bits of a read.
const READ: u64 = 1;

/// The ticks, and the one in which alert 0 rises.
const TICKS: usize = 11;
const RISES: usize = 5;

fn wires(at: usize) -> Wires {
    match at {
        RISES => RAISE,
        _ => Wires::REST,
    }
}

/// The ticks of the accesses one by one; a number that the edition leaves unassigned is no register of the map either.
fn ticks(edition: Edition, mut h: Handler) -> Vec<Ticked> {
    let map = edition.registers();
    let all = accesses(map).into_iter().enumerate();
    let ticks = all.map(|(at, (kind, register, value))| {
        let number = map.carry(register).unwrap_or(u16::MAX);
        let access = match kind {
            0 => Access::Nothing,
            1 => Access::Read(number),
            _ => Access::Write(number, value),
        };
        let t = h.tick(access, Sample::of(wires(at)));
        h = t.handler;
        t
    });
    ticks.collect()
}

fn bytes(edition: Edition) -> Vec<u8> {
    let all = accesses(edition.registers()).into_iter().enumerate();
    let records = all.map(|(at, (kind, register, value))| {
        let Wires { pos, neg } = wires(at);
        let head = Head::new(kind as u8, register, value);
        let tail = match edition.has_receive() {
            true => Tail::wired(0, LinePairs::REST),
            false => Tail::default(),
        };
        pack(edition, head, (pos, neg), tail)
    });
    records.collect::<Vec<_>>().concat()
}

#[test]
fn a_batch_is_its_ticks() {
    for edition in Edition::ALL {
        for n in [2, edition.alerts()] {
            let given = ticks(edition, made(n));
            let mut words = [Word(7); TICKS + 2];
            let (all, answer) = made(n).batch(edition, &bytes(edition), &mut words);
            assert_eq!((all, answer), (given[TICKS - 1].handler, Answer(0)));
            for (word, t) in words.iter().zip(&given) {
                for b in 0..4 {
                    assert_eq!(word.interrupt(b), t.output.interrupts >> b & 1 == 1);
                    assert_eq!(word.line(b), t.output.lines >> b & 1 == 1);
                }
                let said = word.refusal().map_or(Ok(word.value()), Err);
                assert_eq!(said, t.answer.value());
            }
            assert!(words[RISES].interrupt(0) && words[RISES].line(0));
            assert_eq!(words[RISES + 1].value(), 1);
            assert_eq!(words[TICKS - 1].refusal(), Some(Refusal::DIFFERS));
            assert_eq!(words[TICKS..], [Word(7); 2]);
        }
    }
}

#[test]
fn a_refused_batch_leaves_state_and_list() {
    let h = made(1);
    let mut words = [Word(7); 1];
    for edition in Edition::ALL {
        let zeros = vec![0; 2 * edition.bytes()];
        let mut refused = |length| h.batch(edition, &zeros[..length], &mut words);
        assert_eq!(refused(2 * edition.bytes()), (h, Answer(-9)));
        assert_eq!(refused(edition.bytes() + 1), (h, Answer(-8)));
        assert_eq!(refused(edition.bytes() - 1), (h, Answer(-8)));
        assert_eq!(h.batch(edition, &[], &mut []), (h, Answer(0)));
    }
    assert_eq!(words, [Word(7)]);
}

#[test]
fn an_old_batch_refuses_a_handler_of_more_than_64_alerts() {
    let mut words = [Word(7); 1];
    for n in [65, 248] {
        let h = made(n);
        for length in [0, 1, 24, 48] {
            let given = h.batch(Edition::Alerts64, &[0; 48][..length], &mut words);
            assert_eq!(given, (h, Answer(-7)));
        }
        assert_eq!(words, [Word(7)]);
        assert_eq!(h.batch(Edition::Alerts248, &[], &mut []).1, Answer(0));
    }
}

#[test]
fn an_older_batch_refuses_a_timer_that_is_on() {
    let mut words = [Word(7); 1];
    for n in [1, 64, 248] {
        let on = Access::Write(PING_ENABLE, 1);
        let h = made(n).tick(on, Sample::AT_REST).handler;
        for older in [Edition::Alerts64, Edition::Alerts248] {
            for length in [0, 1, older.bytes(), 2 * older.bytes()] {
                let given = h.batch(older, &[0; 140][..length], &mut words);
                assert_eq!(given, (h, Answer(-7)));
            }
        }
        assert_eq!(words, [Word(7)]);
        for newer in [Edition::Pings, Edition::Wires] {
            assert_eq!(h.batch(newer, &[], &mut []), (h, Answer(0)));
        }
    }
}

/// 4, 5 and 6 are no registers of older records; those with the timer hand it their word, and 254 its answers.
#[test]
fn records_of_75_bytes_alone_reach_the_timer() {
    let wires = (Wires::REST.pos, Wires::REST.neg);
    let mut words = [Word(7); 1];
    for edition in Edition::ALL {
        for register in PING_REGWEN..=PING_ENABLE {
            let bytes = record(edition, READ, register.into(), 0, wires);
            assert_eq!(made(1).batch(edition, &bytes, &mut words).1, Answer(0));
            let refusal = (!edition.has_timer()).then_some(Refusal(1));
            assert_eq!(words[0].refusal(), refusal);
        }
    }
    let on = pack(
        Edition::Pings,
        Head::new(WRITE, PING_ENABLE, 1),
        wires,
        Tail::new(0xFF12_0000, 0),
    );
    let (mut h, _) = made(1).batch(Edition::Pings, &on, &mut words);
    assert_eq!((h.links.turn.alert, h.links.turn.count), (0x12, 0));
    h.links.turn.number = 5;
    for answers in 0..16 {
        let answered = pack(
            Edition::Pings,
            Head::new(NONE, 0, 0),
            wires,
            Tail::new(9, answers),
        );
        let (after, _) = h.batch(Edition::Pings, &answered, &mut words);
        let closed = answers & 4 != 0;
        assert_eq!(after.links.lines, if closed { 0 } else { 4 }, "{answers}");
        assert_eq!(after.links.turn.number, if closed { 6 } else { 5 });
    }
}

/// The receive pairs of a record are those of a tick, and an older record's are not checked.
#[test]
fn the_newest_records_alone_are_checked() {
    let wires = (Wires::REST.pos, Wires::REST.neg);
    let head = Head::new(NONE, 0, 0);
    let mut h = made(1);
    h.locals.en[3] = 1;
    h.links.senders.answer = 5;
    for byte in 0..=255 {
        let receive = LinePairs::of_byte(byte);
        let mut words = [Word(7)];
        let bytes = pack(Edition::Wires, head, wires, Tail::wired(0, receive));
        let (after, answer) = h.batch(Edition::Wires, &bytes, &mut words);
        let sample = Sample {
            receive,
            ..Sample::AT_REST
        };
        let ticked = h.tick(Access::Nothing, sample);
        assert_eq!((after, answer), (ticked.handler, Answer(0)));
        assert_eq!(
            after.locals.cause[3],
            u8::from(receive != LinePairs::sound(5))
        );
        let older = pack(Edition::Pings, head, wires, Tail::new(0, u32::from(byte)));
        let (after, _) = h.batch(Edition::Pings, &older, &mut words);
        assert_eq!((words[0], after.locals.cause[3]), (Word(0), 0));
    }
}

/// What an older record's tick hears is what its batch does: local 1 goes by the answer bits, local 3 never occurs.
#[test]
fn an_unchecked_tick_is_heard_as_it_is() {
    let wires = (Wires::REST.pos, Wires::REST.neg);
    for number in 0..8 {
        for count in 0..6 {
            for answers in 0..16 {
                let mut h = made(1);
                h.locals.en = [1; 7];
                (h.timer.enable, h.timer.timeout) = (1, 4);
                h.links.turn = Turn {
                    number,
                    alert: 0,
                    count,
                };
                let line = number % 2 == 1;
                h.links.lines = if line { 1 << (number / 2) } else { 0 };
                (h.links.senders.answer, h.links.right) = (answers, u32::from(count) % 2);
                let bytes = pack(
                    Edition::Pings,
                    Head::new(NONE, 0, 0),
                    wires,
                    Tail::new(0, answers),
                );
                let (after, _) = h.batch(Edition::Pings, &bytes, &mut [Word(0)]);
                let heard = h.hear_unchecked(Access::Nothing, Sample::AT_REST, answers);
                let caused = (0..7).map(|j| u64::from(after.locals.cause[j]) << j);
                assert_eq!(
                    heard.locals,
                    caused.sum::<u64>(),
                    "{number} {count} {answers}"
                );
            }
        }
    }
}
