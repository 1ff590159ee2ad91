//! Boots that stop: no boot of a new handler does, so the states are made by hand.
use super::said::end;
use super::table::lines;
use handler::registers::{Field, Setting, MAP};
use handler::{Access, Answer, Handler, Installed, Lifecycle, Sample};

fn new() -> Handler {
    Handler::new(58).0
}

/// The state after one write.
fn write(h: Handler, number: u16, value: u32) -> Handler {
    let given = h.tick(Access::Write(number, value), Sample::AT_REST);
    assert_eq!(given.answer, Answer(0));
    given.handler
}

#[test]
fn a_stop_is_told_with_its_register_and_the_reason() {
    let booted = new().install(Lifecycle::Prod).handler;
    let locked = write(new(), MAP.class(0, Setting::Regwen), 0);
    let staged = write(new(), MAP.alert(Field::En, 57), 0);
    for (h, wanted) in [
        (booted, "stopped: ALERT14_CLASS (782): refused: locked"),
        (
            locked,
            "stopped: CLASSA_ACCUM_THRESH (1285): refused: locked",
        ),
        (staged, "stopped: ALERT57_EN (569): refused: differs"),
    ] {
        assert_eq!(end(&h.install(Lifecycle::Prod)), wanted);
    }
}

/// No right handler gives such a one.
#[test]
fn a_difference_is_told_with_what_is_read() {
    let stopped = |register, answer| {
        end(&Installed {
            handler: new(),
            answer: Answer(answer),
            register,
        })
    };
    let ctrl = MAP.class(1, Setting::Ctrl);
    assert_eq!(
        stopped(ctrl, 0x393C),
        "stopped: CLASSB_CTRL (1297): it reads 0x393c, which was not written"
    );
    let en = MAP.alert(Field::En, 3);
    assert_eq!(
        stopped(en, 0),
        "stopped: ALERT3_EN (515): it reads 0, which was not written"
    );
}

#[test]
fn refusals_of_the_whole_call_are_told() {
    let few = Handler { n: 57, ..new() };
    let broken = Handler { n: 249, ..new() };
    for (h, wanted) in [
        (
            few,
            "refused: 57 alerts are too few, a boot installs 58; nothing was changed",
        ),
        (
            broken,
            "refused: the state breaks its rule; nothing was changed",
        ),
    ] {
        assert_eq!(end(&h.install(Lifecycle::Dev)), wanted);
    }
}

/// The rows are as they were left: installed before the stop, as new after it.
#[test]
fn the_rows_of_a_stop_are_those_of_the_state_reached() {
    let locked = write(new(), MAP.alert(Field::Regwen, 1), 0);
    let stopped = lines(&locked.install(Lifecycle::Prod).handler);
    let whole = lines(&new().install(Lifecycle::Prod).handler);
    let fresh = lines(&new());
    assert_eq!(stopped[1], whole[1]);
    assert_eq!(stopped[2], fresh[2].replace("no", "yes"));
    assert_eq!(stopped[3..], fresh[3..]);
}

/// The last row is the ping timer's, by what its registers hold.
#[test]
fn the_ping_timer_has_a_row() {
    let last = |h: &Handler| lines(h).pop().expect("a row");
    assert_eq!(last(&new()), "ping timer: off, timeout 0, not locked");
    let timed = [(5, 9), (5, 9), (6, 1), (4, 0)]
        .into_iter()
        .fold(new(), |h, (number, value)| write(h, number, value));
    assert_eq!(last(&timed), "ping timer: on, timeout 9, locked");
}
