//! The rows of a state that was booted: its alerts, its classes, then its ping timer.
use crate::names;
use handler::boot::{settings, BOOT_ALERTS};
use handler::registers::{Register, Setting, LETTERS};
use handler::{Class, Handler, ALERT_NAMES, CLASSES};

const ALERTS_HEADER: &str = "alert name                         class EN locked";
const CLASSES_HEADER: &str =
    "class threshold timeout phase 0 phase 1 phase 2    phase 3 CTRL   locked";

/// The class of an alert by its letter; X where it has neither class nor EN, as document 002 writes that.
fn class_of(class: u8, en: u8) -> char {
    match (class, en) {
        (0, 0) => 'X',
        _ => LETTERS.get(usize::from(class)).copied().unwrap_or('?'),
    }
}

fn locked(regwen: u8) -> &'static str {
    match regwen {
        0 => "yes",
        _ => "no",
    }
}

fn alert(h: &Handler, i: usize) -> String {
    let (name, en) = (ALERT_NAMES[i], h.alerts.en[i]);
    let class = class_of(h.alerts.class[i], en);
    let locked = locked(h.alerts.regwen[i]);
    format!("{i:>5} {name:<28} {class:<5} {en:<2} {locked}")
}

fn class(k: usize, class: &Class) -> String {
    let shown =
        |(setting, value): (Setting, u32)| names::value(Some(Register::Class(k, setting)), value);
    let [threshold, timeout, phase0, phase1, phase2, phase3, ctrl] = settings(class).map(shown);
    let (letter, locked) = (LETTERS[k], locked(class.regwen));
    format!(
        "{letter:<5} {threshold:>9} {timeout:>7} {phase0:>7} {phase1:>7} {phase2:>7} {phase3:>10} {ctrl} {locked}"
    )
}

/// The policy has no word of it, so of a new handler it is off.
fn timer(h: &Handler) -> String {
    let on = if h.timer.is_on() { "on" } else { "off" };
    let locked = if h.timer.regwen == 0 {
        "locked"
    } else {
        "not locked"
    };
    format!("ping timer: {on}, timeout {}, {locked}", h.timer.timeout)
}

/// The table, as the state holds it.
pub fn lines(h: &Handler) -> Vec<String> {
    let mut all = vec![ALERTS_HEADER.to_string()];
    all.extend((0..BOOT_ALERTS).map(|i| alert(h, i)));
    all.push(CLASSES_HEADER.to_string());
    all.extend((0..CLASSES).map(|k| class(k, &h.classes[k])));
    all.push(timer(h));
    all
}
