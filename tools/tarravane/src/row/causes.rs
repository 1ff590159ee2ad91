//! The causes that a tick sets.
use crate::facts::tick::Tick;
use crate::style::Style;

/// Names with the numbers that are newly 1, each as it is written after the one before: ` ALERT0`, `,5`.
fn newly(name: &str, before: &[u8], after: &[u8]) -> Vec<String> {
    let mut all = Vec::new();
    for i in (0..after.len()).filter(|&i| before[i] == 0 && after[i] == 1) {
        let start = if all.is_empty() {
            format!(" {name}")
        } else {
            ",".to_string()
        };
        all.push(format!("{start}{i}"));
    }
    all
}

/// The causes that were 0 before the tick and are 1 after it.
pub fn set(t: &Tick) -> Vec<String> {
    let (before, after) = (&t.before, &t.after);
    let mut all = newly("ALERT", &before.alerts.cause, &after.alerts.cause);
    all.extend(newly(
        "LOC_ALERT",
        &before.locals.cause,
        &after.locals.cause,
    ));
    all
}

/// The same, each alert with its name.
pub fn named(style: &Style, t: &Tick) -> String {
    let (before, after) = (&t.before.alerts.cause, &t.after.alerts.cause);
    let alerts = (0..after.len()).filter(|&i| before[i] < after[i]);
    let alerts: String = alerts.map(|i| format!(" {}", style.alert(i))).collect();
    let locals = newly("LOC_ALERT", &t.before.locals.cause, &t.after.locals.cause);
    alerts + &locals.concat()
}

/// The columns that they take at least.
pub fn least(causes: &[String]) -> usize {
    match causes.len() {
        0 => 0,
        number => format!(" +{number}").len(),
    }
}

/// As many causes as there is room for, and how many more there are.
pub fn fitted(causes: &[String], room: usize) -> String {
    let mut text = String::new();
    for (i, cause) in causes.iter().enumerate() {
        let left = causes.len() - i;
        let more = if left > 1 { " +000".len() } else { 0 };
        if text.len() + cause.len() + more > room {
            return format!("{text} +{left}");
        }
        text += cause;
    }
    text
}
