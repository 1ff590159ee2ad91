//! The same as one JSON object.
use super::{locks, said, Judged, Verdict};
use crate::json::{list, maybe, object as object_of, text};
use crate::names::whole_state;
use crate::style::alert_name;
use handler::registers::{Field, Register, LETTERS, MAP};
use handler::{Content, ShownClass, LOCALS};

fn class((k, class): (usize, &ShownClass)) -> String {
    object_of(&[
        ("class", text(LETTERS[k])),
        ("state", text(whole_state(class.state))),
        ("ticks", maybe(said::ticks(class))),
        ("accum_cnt", class.accum.to_string()),
    ])
}

/// The causes that are set, the numbers rising.
fn causes(content: &Content) -> Vec<Register> {
    let locals = (0..LOCALS).map(|j| Register::Local(Field::Cause, j));
    let alerts = (0..content.n).map(|i| Register::Alert(Field::Cause, i));
    let all = locals.chain(alerts);
    all.filter(|cause| content.is_caused(*cause)).collect()
}

fn stage((register, value): (Register, u32)) -> String {
    object_of(&[
        ("register", text(register)),
        ("number", MAP.number(register).unwrap_or(0).to_string()),
        ("value", value.to_string()),
    ])
}

/// The names of the alerts below N in document 002.
fn alert_names(content: &Content) -> String {
    list((0..content.n).filter_map(alert_name).map(text))
}

fn whole(content: &Content, bytes: String, named: bool) -> String {
    let names = |all: Vec<Register>| list(all.into_iter().map(text));
    let mut pairs = vec![
        ("dump", text("whole")),
        ("bytes", bytes),
        ("alerts", content.n.to_string()),
        (
            "classes",
            list(content.classes.iter().enumerate().map(class)),
        ),
        ("causes", names(causes(content))),
        ("locked", names(locks::of(content, true))),
        ("not_locked", names(locks::of(content, false))),
        ("half_done", list(content.staged().into_iter().map(stage))),
    ];
    if named {
        pairs.push(("names", alert_names(content)));
    }
    object_of(&pairs)
}

/// `named`: with the alerts' names.
pub(super) fn object(judged: &Judged, named: bool) -> String {
    let bytes = judged.bytes.len().to_string();
    let object = match &judged.verdict {
        Verdict::Whole(content) => whole(content, bytes, named),
        Verdict::Cut(missing) => object_of(&[
            ("dump", text("cut")),
            ("bytes", bytes),
            ("missing_at_least", missing.to_string()),
        ]),
        Verdict::Damaged => object_of(&[("dump", text("damaged")), ("bytes", bytes)]),
    };
    format!("{object}\n")
}
