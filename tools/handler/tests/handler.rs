//! The wrapper asks the library and loses nothing on the way.
use handler::registers::{
    Field, Setting, INTR_ENABLE, MAP, PING_ENABLE, PING_REGWEN, PING_TIMEOUT,
};
use handler::{
    Access, Answer, Handler, Links, Output, Receivers, Refusal, Sample, Stages, Timer, ALERTS,
};
use harness::configure::configure as writes;

const REST: Sample = Sample::AT_REST;

fn made(n: usize) -> Handler {
    let (handler, answer) = Handler::new(n);
    assert_eq!(answer, Answer(0));
    handler
}

/// The handler after the writes that give the register its value.
fn configure(h: Handler, register: u16, value: u32) -> Handler {
    let writes = writes(MAP, register, value).into_iter();
    writes.fold(h, |h, (register, value)| {
        let t = h.tick(Access::Write(register, value), REST);
        assert_eq!(t.answer, Answer(0));
        t.handler
    })
}

/// Alert i at (1,0), the others at rest.
fn raised(i: usize) -> Sample {
    let mut sample = REST;
    let wires = &mut sample.alerts;
    wires.pos[i / 64] |= 1 << (63 - i % 64);
    wires.neg[i / 64] &= !wires.pos[i / 64];
    sample
}

#[test]
fn a_handler_is_made_for_1_to_248_alerts() {
    for n in [1, 64, 65, 247, 248] {
        let h = made(n);
        assert_eq!(h, Handler { n, ..made(1) });
        assert_eq!((h.links, h.timer), (Links::NEW, Timer::NEW));
        assert_eq!(h.alerts.regwen, [1; ALERTS]);
        assert_eq!(h.alerts.class, [0; ALERTS]);
        assert_eq!(h.stages, Stages::NONE);
    }
    for n in [0, 249, usize::MAX] {
        let (handler, answer) = Handler::new(n);
        assert_eq!(answer.value(), Err(Refusal(6)));
        assert_eq!(handler, Handler { n: 0, ..made(1) });
    }
}

#[test]
fn an_answer_is_a_value_or_a_refusal() {
    let read = |setting| Access::Read(MAP.class(0, setting));
    let write = |setting, value| Access::Write(MAP.class(0, setting), value);
    let h = made(1);
    let answer = |h: Handler, access| h.tick(access, REST).answer.value();
    assert_eq!(answer(h, read(Setting::Ctrl)), Ok(0x393C));
    assert_eq!(answer(h, Access::Read(333)), Err(Refusal(1)));
    assert_eq!(answer(h, write(Setting::AccumCnt, 0)), Err(Refusal(2)));
    let wide = write(Setting::AccumThresh, 65536);
    assert_eq!(answer(h, wide), Err(Refusal(4)));
    assert_eq!(answer(h, Access::Malformed), Err(Refusal(5)));
    let h = configure(h, MAP.class(0, Setting::TimeoutCyc), u32::MAX);
    assert_eq!(answer(h, read(Setting::TimeoutCyc)), Ok(u32::MAX));
    let h = h.tick(write(Setting::Regwen, 0), REST).handler;
    assert_eq!(answer(h, write(Setting::Ctrl, 1)), Err(Refusal::LOCKED));
}

#[test]
fn a_stage_stands_in_its_field() {
    let write = |setting, value| Access::Write(MAP.class(2, setting), value);
    let fresh = made(248);
    for (setting, value) in [
        (Setting::Ctrl, 0x3FFF),
        (Setting::AccumThresh, 0xFFFF),
        (Setting::TimeoutCyc, u32::MAX),
        (Setting::Phase3Cyc, u32::MAX),
    ] {
        let h = fresh.tick(write(setting, value), REST).handler;
        let stages = &h.stages.classes[2];
        let code = match setting {
            Setting::Ctrl => stages.ctrl.into(),
            Setting::AccumThresh => stages.thresh.into(),
            Setting::TimeoutCyc => stages.timeout,
            _ => stages.lengths[3],
        };
        assert_eq!(code, u64::from(value) + 1);
        assert_eq!(h.classes, fresh.classes);
        let t = h.tick(write(setting, value ^ 1), REST);
        assert_eq!(t.answer.value(), Err(Refusal::DIFFERS));
        assert_eq!(t.handler, fresh);
    }
    let en = |value| Access::Write(MAP.alert(Field::En, 247), value);
    let h = fresh.tick(en(1), REST).handler;
    assert_eq!((h.stages.alerts.en[247], h.alerts.en[247]), (2, 0));
    let h = h.tick(en(1), REST).handler;
    assert_eq!((h.stages.alerts.en[247], h.alerts.en[247]), (0, 1));
    let class = Access::Write(MAP.local(Field::Class, 6), 3);
    assert_eq!(fresh.tick(class, REST).handler.stages.locals.class[6], 4);
    let timeout = Access::Write(PING_TIMEOUT, 65535);
    assert_eq!(fresh.tick(timeout, REST).handler.stages.timeout, 65536);
}

#[test]
fn the_timers_registers_stand_in_their_fields() {
    let h = configure(made(1), PING_TIMEOUT, 0xBEEF);
    assert_eq!((h.timer.timeout, h.timer.is_on()), (0xBEEF, false));
    let h = configure(h, PING_ENABLE, 1);
    assert_eq!((h.timer.enable, h.timer.is_on()), (1, true));
    let h = configure(h, PING_REGWEN, 0);
    assert_eq!(h.timer.regwen, 0);
    for (register, value) in [(PING_TIMEOUT, 0xBEEF), (PING_ENABLE, 1), (PING_REGWEN, 0)] {
        assert_eq!(h.tick(Access::Read(register), REST).answer, Answer(value));
        let locked = h.tick(Access::Write(register, 1), REST).answer;
        assert_eq!(locked.value(), Err(Refusal::LOCKED));
    }
}

#[test]
fn a_class_that_waits_for_65536_events_is_not_locked() {
    let number = |setting| MAP.class(1, setting);
    let h = configure(made(248), number(Setting::Ctrl), 0x393D);
    let h = configure(h, number(Setting::AccumThresh), 65535);
    let lock = Access::Write(number(Setting::Regwen), 0);
    let t = h.tick(lock, REST);
    assert_eq!(t.answer.value(), Err(Refusal::THRESHOLD));
    assert_eq!(t.handler, h);
    let h = configure(h, number(Setting::AccumThresh), 65534);
    let t = h.tick(lock, REST);
    assert_eq!((t.answer, t.handler.classes[1].regwen), (Answer(0), 0));
}

#[test]
fn the_wires_and_registers_of_every_alert_are_its_own() {
    for i in [0, 1, 63, 64, 127, 128, 191, 192, 247] {
        let number = |field| MAP.alert(field, i);
        let mut h = made(248);
        for (register, value) in [
            (number(Field::En), 1),
            (number(Field::Class), 3),
            (MAP.class(3, Setting::Ctrl), 0x393F),
            (INTR_ENABLE, 15),
        ] {
            h = configure(h, register, value);
        }
        assert_eq!((h.alerts.en[i], h.alerts.class[i]), (1, 3));
        let t = h.tick(Access::Nothing, raised(i));
        assert_eq!((t.output.interrupts, t.output.lines), (8, 1));
        let mut wanted = Receivers::NEW;
        wanted.busy[i / 64] |= 1 << (63 - i % 64);
        assert_eq!(t.handler.links.receivers, wanted);
        let cause = |j| Access::Read(MAP.alert(Field::Cause, j));
        for (j, value) in [(i, 1), ((i + 1) % 248, 0), ((i + 64) % 248, 0)] {
            assert_eq!(t.handler.tick(cause(j), REST).answer, Answer(value));
        }
    }
}

#[test]
fn a_damaged_state_is_refused_and_unchanged() {
    let mut one = made(3);
    one.classes[2].state = 2;
    let mut last = made(248);
    last.alerts.cause[247] = 2;
    let mut stage = made(248);
    stage.stages.alerts.class[247] = 5;
    let mut ping = made(248);
    ping.links.receivers.pending[3] = 1 << 8;
    let mut line = made(248);
    line.links.lines = 1;
    let over = Handler { n: 249, ..made(1) };
    for h in [one, last, stage, ping, line, over] {
        let t = h.tick(Access::Nothing, raised(0));
        assert_eq!(t.answer.value(), Err(Refusal(7)));
        assert_eq!(t.handler, h);
        assert_eq!(t.output, Output::AT_REST);
    }
}
