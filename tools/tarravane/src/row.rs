//! The row of a tick.
mod causes;
mod class;
mod disabled;
mod pairs;
mod receivers;
mod said;
mod stages;
mod timer;

use crate::facts::answer;
use crate::facts::tick::Tick;
use crate::facts::wires::of_alerts;
use crate::style::Style;
use class::class;
use handler::registers::LETTERS;
use handler::Input;

/// No row is wider, but where it is asked for.
pub const WIDTH: usize = 120;

const HEADER: &str =
    "  tick access, wires                   answer               intr line A        B        C        D        causes set";

/// In columns, else squeezed, else with short words and counts: the first that fits.
#[derive(Clone, Copy, PartialEq, Eq)]
pub enum Form {
    Columns,
    Squeezed,
    Short,
}

fn answer(t: &Tick, form: Form) -> String {
    match form {
        Form::Short => answer::short(t),
        _ => answer::words(t),
    }
}

fn flags(names: [char; 4], on: impl Fn(usize) -> bool) -> String {
    (0..4).map(|b| if on(b) { names[b] } else { '-' }).collect()
}

/// The columns at which the answer, the interrupts, the lines, the classes and the causes begin.
const ANSWER: usize = 39;
const INTERRUPTS: usize = 60;
const LINES: usize = 65;
const CLASSES: [usize; 4] = [70, 79, 88, 97];
const CAUSES: usize = 106;

/// Adds words at a column, or where the words before them reach so far, one space after those.
fn put(row: &mut String, column: usize, words: &str) {
    let to = column.max(row.len() + 1);
    row.push_str(&" ".repeat(to - row.len()));
    row.push_str(words);
}

/// The row up to the causes; `said`: what it says of access and wires. In columns only where access, wires and answer have room
/// before the interrupts; words that are wider than their column take room from the next.
fn columns(t: &Tick, said: &str, form: Form) -> String {
    let intr = flags(LETTERS, |k| t.word.interrupt(k));
    let line = flags(['0', '1', '2', '3'], |e| t.word.line(e));
    let classes = [0, 1, 2, 3].map(|k| class(&t.after.classes[k], form));
    let answer = answer(t, form);
    let mut row = format!("{:>6} {said}", t.number);
    if form != Form::Columns || ANSWER.max(row.len() + 1) + answer.len() >= INTERRUPTS {
        return format!("{row}: {answer} {intr} {line} {}", classes.join(" "));
    }
    put(&mut row, ANSWER, &answer);
    put(&mut row, INTERRUPTS, &intr);
    put(&mut row, LINES, &line);
    for (column, class) in CLASSES.into_iter().zip(&classes) {
        put(&mut row, column, class);
    }
    row.push_str(&" ".repeat((CAUSES - 1).saturating_sub(row.len())));
    row
}

/// Events of disabled alerts and receivers that are not ready: by their alerts, then more and more of them counted.
fn beside(t: &Tick) -> [String; 3] {
    let (disabled, receivers) = (disabled::list(t), receivers::count(t));
    [
        disabled.clone() + &receivers::list(t),
        disabled + &receivers,
        disabled::count(t) + &receivers,
    ]
}

/// What the record gives, the wires of alerts that the handler has not at rest: they count for nothing, and are not shown.
fn shown(t: &Tick) -> Input {
    let mut shown = t.input;
    shown.sample.alerts = of_alerts(&t.after, shown.sample.alerts);
    shown
}

/// The row in the first form that has room for it, with the line of a text but its entropy, else with the wires counted; causes
/// with the alerts' names, where those are asked for, else without; alerts with an event while they are disabled; receivers that are
/// not ready by their alerts, else counted; the lines' pairs; what the ping timer does. Open stages are counted at its end.
fn roomy(style: &Style, t: &Tick) -> Option<String> {
    let (edition, x) = (t.edition, &shown(t));
    let named = style.names.then(|| causes::named(style, t));
    let causes = [named, Some(causes::set(t).concat())];
    let lines = pairs::list(t) + &timer::list(t);
    let beside = beside(t);
    let whole = said::whole(style.naming, edition, x);
    let said = [whole, said::counted(style.naming, edition, x)];
    let forms = [Form::Columns, Form::Squeezed];
    for causes in causes.iter().flatten() {
        for (said, form) in said.iter().flat_map(|said| forms.map(|form| (said, form))) {
            let start = columns(t, said, form) + causes;
            let stages = stages::count(&t.after, form);
            for beside in &beside {
                let row = format!("{start}{beside}{lines}{stages}");
                if row.trim_end().len() <= WIDTH {
                    return Some(row.trim_end().to_string());
                }
            }
        }
    }
    None
}

/// The row in short form: causes may be left out, and are then counted.
fn short(style: &Style, t: &Tick) -> String {
    let (edition, x) = (t.edition, &shown(t));
    let causes = causes::set(t);
    let lines = pairs::short(t) + &timer::short(t);
    let end = receivers::count(t) + &lines + &stages::count(&t.after, Form::Short);
    let room = |short: &String| WIDTH.saturating_sub(short.len() + end.len());
    let mut short = columns(t, &said::shortest(style.naming, edition, x), Form::Short);
    if room(&short) < causes::least(&causes) {
        short = columns(t, &said::numbered(edition, x), Form::Short);
    }
    let room = room(&short);
    short + &causes::fitted(&causes, room) + &end
}

/// Before a row, where ticks have times.
fn timed(style: &Style, t: &Tick, row: String) -> String {
    match &style.clock {
        None => row,
        Some(clock) => format!("{} {row}", clock.whole(t.number)),
    }
}

/// The header, as far right as rows with times are.
pub fn header(style: &Style) -> String {
    match &style.clock {
        None => HEADER.to_string(),
        Some(clock) => format!("{:<width$} {HEADER}", "time", width = clock.whole(1).len()),
    }
}

/// The row of at most 120 columns, and the time before it.
pub fn row(style: &Style, t: &Tick) -> String {
    let row = roomy(style, t).unwrap_or_else(|| short(style, t));
    timed(style, t, row)
}

/// The row with every wire, the entropy, every cause, receiver that is not ready and open stage, and the bytes of a malformed
/// record, however wide.
pub fn wide_row(style: &Style, t: &Tick) -> String {
    let shown = shown(t);
    let said = if t.is_malformed() {
        said::raw(&t.record, &shown)
    } else {
        said::line(style.naming, t.edition, &shown)
    };
    let causes = match style.names {
        true => causes::named(style, t),
        false => causes::set(t).concat(),
    };
    let lines = pairs::list(t) + &timer::list(t);
    let beside = disabled::list(t) + &receivers::list(t);
    let end = beside + &lines + &stages::list(style.naming, &t.after);
    let row = columns(t, &said, Form::Columns) + &causes + &end;
    timed(style, t, row.trim_end().to_string())
}

#[cfg(test)]
mod tests;
