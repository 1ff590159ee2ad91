//! The wrappers of the dump's writer and reader lose nothing.
use handler::registers::{Field, Register, Setting, MAP};
use handler::{read_dump, Access, Answer, Content, Handler, Refusal, Sample, DUMP_MOST, REGISTERS};

/// The dump of a state.
fn dumped(h: Handler) -> Vec<u8> {
    let mut out = [0; DUMP_MOST];
    let length = h.dump(&mut out).bytes().expect("it is written");
    out[..length].to_vec()
}

/// What the dump of a state shows.
fn shown(h: Handler) -> Content {
    let (content, answer) = read_dump(&dumped(h));
    assert_eq!(answer, Answer(0));
    content
}

fn write(h: Handler, register: Register, value: u32) -> Handler {
    let number = MAP.number(register).expect("a register");
    let given = h.tick(Access::Write(number, value), Sample::AT_REST);
    assert_eq!(given.answer, Answer(0));
    given.handler
}

/// Request (xiv)'s form, by hand: all 0 but N, and no stage.
#[test]
fn a_new_handler_has_its_bytes() {
    let (h, _) = Handler::new(1);
    let mut wanted = b"TDMP\x01".to_vec();
    // 4 * 51 bits of classes, 8 causes, 17 locks: 229 bits, so 29 bytes; then the number of stages.
    wanted.extend([0; 29 + 2]);
    assert_eq!(dumped(h), wanted);
    let content = shown(h);
    assert_eq!(
        content,
        Content {
            n: 1,
            ..Content::NOTHING
        }
    );
}

#[test]
fn a_dump_shows_what_the_state_held() {
    let (mut h, _) = Handler::new(3);
    let regwen = Register::Alert(Field::Regwen, 2);
    let clear = Register::Class(3, Setting::ClrRegwen);
    h = write(h, regwen, 0);
    h = write(h, clear, 0);
    h = write(h, Register::PingTimeout, 65535);
    h = write(h, Register::Class(1, Setting::Phase3Cyc), u32::MAX);
    h = write(h, Register::Alert(Field::En, 1), 0);
    h.alerts.cause[0] = 1;
    h.locals.cause[6] = 1;
    (h.classes[2].state, h.classes[2].count, h.classes[2].accum) = (7, u32::MAX, 65535);
    let content = shown(h);
    assert_eq!(content.n, 3);
    let class = content.classes[2];
    assert_eq!(
        (class.state, class.count, class.accum),
        (7, u32::MAX, 65535)
    );
    let stages = [
        (Register::PingTimeout, 65535),
        (Register::Alert(Field::En, 1), 0),
        (Register::Class(1, Setting::Phase3Cyc), u32::MAX),
    ];
    assert_eq!(content.staged(), stages);
    for number in 0..REGISTERS as u16 {
        let register = match MAP.register(number) {
            Some(register) => register,
            None => continue,
        };
        let locked = [regwen, clear].contains(&register);
        assert_eq!(content.is_locked(register), locked, "{register}");
        let caused = [
            Register::Alert(Field::Cause, 0),
            Register::Local(Field::Cause, 6),
        ];
        assert_eq!(content.is_caused(register), caused.contains(&register));
    }
}

#[test]
fn later_bytes_stay_and_a_short_buffer_is_left() {
    let (h, _) = Handler::new(58);
    let dump = dumped(h);
    for length in 0..dump.len() + 3 {
        let mut out = vec![7; length];
        let answer = h.dump(&mut out);
        match length < dump.len() {
            true => {
                assert_eq!(answer.bytes(), Err(Refusal::SHORT_BUFFER));
                assert_eq!(out, vec![7; length]);
            }
            false => {
                assert_eq!(answer.bytes(), Ok(dump.len()));
                assert_eq!(out[..dump.len()], dump);
                assert_eq!(out[dump.len()..], vec![7; length - dump.len()]);
            }
        }
    }
    let broken = Handler { n: 249, ..h };
    for length in [0, DUMP_MOST] {
        let mut out = vec![7; length];
        assert_eq!(broken.dump(&mut out).bytes(), Err(Refusal(7)));
        assert_eq!(out, vec![7; length]);
    }
}

#[test]
fn the_longest_dump_has_every_stage_of_248_alerts() {
    let (mut h, _) = Handler::new(248);
    for number in 0..REGISTERS as u16 {
        if let Some(register) = MAP.register(number).filter(|it| it.is_shadowed()) {
            h = write(h, register, 1);
        }
    }
    assert_eq!(dumped(h).len(), DUMP_MOST);
    assert_eq!(shown(h).staged().len(), 539);
}

#[test]
fn what_is_no_dump_shows_nothing() {
    let dump = dumped(Handler::new(2).0);
    for length in 0..dump.len() {
        let given = read_dump(&dump[..length]);
        assert_eq!(given.1.value(), Err(Refusal::CUT_DUMP), "{length}");
        assert_eq!(given.0, Content::NOTHING);
    }
    let longer = [&dump[..], &[0]].concat();
    for bytes in [&longer[..], b"tdmp", b"TDMP\xF9", b"\0"] {
        let given = read_dump(bytes);
        assert_eq!(given.1.value(), Err(Refusal::NO_DUMP), "{bytes:?}");
        assert_eq!(given.0, Content::NOTHING);
    }
}
