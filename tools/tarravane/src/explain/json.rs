//! A tick as a JSON object. Names stay as they are; others may be added.
use crate::facts::answer::{outcome, refused};
use crate::facts::changes::changes;
use crate::facts::events::{alerts, is_enabled, locals};
use crate::facts::locks::locked;
use crate::facts::pairs::{faults, Fault};
use crate::facts::settings::{changed, Changed};
use crate::facts::stages::open;
use crate::facts::tick::Tick;
use crate::facts::timer::{ping, End, Ping};
use crate::facts::wires::of_alerts;
use crate::json::{list, maybe, object, text};
use crate::names::{self, whole_state};
use crate::style::Style;
use crate::text::hex;
use crate::text::receive::levels;
use crate::text::wires::each;
use handler::registers::{Field, Register, LETTERS};
use handler::{Access, Class, CLASSES, LINES};

/// The bits that are 1, by what `of` gives of their places.
fn on(number: usize, is: impl Fn(usize) -> bool, of: impl Fn(usize) -> String) -> String {
    list((0..number).filter(|at| is(*at)).map(of))
}

/// The access: its kind, the register with its name and number, and the value that is written.
fn access(style: &Style, t: &Tick) -> Vec<(&'static str, String)> {
    let (kind, number, value) = match t.input.access {
        _ if t.is_malformed() => ("malformed", None, None),
        Access::Nothing => ("none", None, None),
        Access::Read(number) => ("read", Some(number), None),
        Access::Write(number, value) => ("write", Some(number), Some(value)),
        Access::Malformed => ("malformed", None, None),
    };
    let register = t.register().filter(|_| number.is_some());
    let raw = t.is_malformed().then(|| text(hex::words(&t.record)));
    vec![
        ("access", text(kind)),
        (
            "register",
            maybe(register.map(|it| text(style.naming.name(it)))),
        ),
        ("number", maybe(number)),
        ("value", maybe(value)),
        ("raw", maybe(raw)),
    ]
}

/// What it answers: the word of what was done, the value that was read, the refusal.
fn answer(t: &Tick) -> Vec<(&'static str, String)> {
    let reads = matches!(t.input.access, Access::Read(_)) && refused(t).is_none();
    vec![
        ("answer", text(outcome(t))),
        ("read", maybe(reads.then(|| t.word.value()))),
        ("refusal", maybe(t.word.refusal().map(|refusal| refusal.0))),
    ]
}

/// What comes in beside the access.
fn sample(t: &Tick) -> Vec<(&'static str, String)> {
    let sample = &t.input.sample;
    let pair = |(i, pair): (usize, (bool, bool))| {
        object(&[("alert", i.to_string()), ("pair", text(levels(pair)))])
    };
    let wires = list(each(of_alerts(&t.after, sample.alerts)).map(pair));
    let receive = (0..LINES).map(|e| text(levels(sample.receive.pair(e))));
    let receive = t.edition.has_receive().then(|| list(receive));
    let old = t.edition.has_timer() && !t.edition.has_receive();
    let answers = old.then(|| on(LINES, |e| t.input.answers >> e & 1 == 1, |e| e.to_string()));
    vec![
        ("wires", wires),
        (
            "entropy",
            maybe(t.edition.has_timer().then_some(sample.word)),
        ),
        ("receive", maybe(receive)),
        ("answers", maybe(answers)),
    ]
}

fn class((k, class): (usize, &Class)) -> String {
    object(&[
        ("class", text(LETTERS[k])),
        ("state", text(whole_state(class.state))),
        ("esc_cnt", class.count.to_string()),
        ("accum_cnt", class.accum.to_string()),
    ])
}

/// What goes out, and what the classes then are.
fn outputs(t: &Tick) -> Vec<(&'static str, String)> {
    let letter = |k: usize| text(LETTERS[k]);
    vec![
        ("interrupts", on(CLASSES, |k| t.word.interrupt(k), letter)),
        ("lines", on(LINES, |e| t.word.line(e), |e| e.to_string())),
        (
            "classes",
            list(t.after.classes.iter().enumerate().map(class)),
        ),
    ]
}

/// The causes that were 0 before the tick and are 1 after it.
fn causes(style: &Style, t: &Tick) -> String {
    let set = |before: &[u8], after: &[u8], i: usize| before[i] < after[i];
    let (was, is) = (&t.before, &t.after);
    let locals = (0..is.locals.cause.len())
        .filter(|&j| set(&was.locals.cause, &is.locals.cause, j))
        .map(|j| Register::Local(Field::Cause, j));
    let alerts = (0..is.n)
        .filter(|&i| set(&was.alerts.cause, &is.alerts.cause, i))
        .map(|i| Register::Alert(Field::Cause, i));
    list(locals.chain(alerts).map(|it| text(style.naming.name(it))))
}

/// Events, local alerts that occur, and causes.
fn events(style: &Style, t: &Tick) -> Vec<(&'static str, String)> {
    let of = |on: bool| {
        let all = alerts(t).filter(move |&i| is_enabled(&t.after, i) == on);
        list(all.map(|i| i.to_string()))
    };
    vec![
        ("events", of(true)),
        ("events_while_disabled", of(false)),
        ("local_alerts", list(locals(t).map(|j| j.to_string()))),
        ("causes_set", causes(style, t)),
    ]
}

fn setting(style: &Style, Changed { register, was, is }: Changed) -> String {
    object(&[
        ("register", text(style.naming.name(register))),
        ("was", was.to_string()),
        ("is", is.to_string()),
    ])
}

/// The setting that gets another value, the locks that fall, the stages that are open.
fn settings(style: &Style, t: &Tick) -> Vec<(&'static str, String)> {
    let name = |register| text(style.naming.name(register));
    let stage = |(register, value): (Register, u32)| {
        object(&[("register", name(register)), ("value", value.to_string())])
    };
    let changed = changed(t).map(|changed| setting(style, changed));
    vec![
        ("setting", maybe(changed)),
        ("locked", list(locked(t).into_iter().map(name))),
        ("stages", list(open(&t.after).into_iter().map(stage))),
    ]
}

fn end(end: End) -> &'static str {
    match end {
        End::Answered => "answered",
        End::Failed => "failed",
        End::Unsent => "unsent",
        End::Closed => "closed",
    }
}

fn ping_of(ping: Ping) -> String {
    object(&[
        ("of", text(names::pinged(ping.of))),
        ("open", ping.open.to_string()),
        ("end", maybe(ping.end.map(|it| text(end(it))))),
    ])
}

/// The ping timer's turn, and the lines whose answer is wrong.
fn lines(t: &Tick) -> Vec<(&'static str, String)> {
    let fault = |fault: Fault| {
        object(&[
            ("line", fault.line.to_string()),
            ("came", text(levels(fault.came))),
            ("right", text(levels(fault.right))),
        ])
    };
    vec![
        ("ping", maybe(ping(t).map(ping_of))),
        ("wrong_answers", list(faults(t).into_iter().map(fault))),
    ]
}

pub fn tick(style: &Style, t: &Tick) -> String {
    let mut all = vec![("kind", text("tick")), ("tick", t.number.to_string())];
    let time = style
        .clock
        .as_ref()
        .map(|clock| text(clock.stamp(t.number)));
    all.extend(time.map(|time| ("time", time)));
    all.extend(access(style, t));
    all.extend(answer(t));
    all.extend(sample(t));
    all.extend(outputs(t));
    all.extend(events(style, t));
    all.extend(settings(style, t));
    all.extend(lines(t));
    all.push(("changed", changes(t).to_string()));
    object(&all)
}
