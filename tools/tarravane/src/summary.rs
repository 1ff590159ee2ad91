//! What a technician asks first after a theft: `explain --summary`, and in short below a picture. Its memory is bounded,
//! however long the trace.
mod class;
mod ends;
mod equal;
mod escalation;
mod events;
mod first;
mod kept;
mod lines;
mod pings;
mod refusals;
mod seen;
mod shadow;
mod spans;
mod switches;
mod telling;
pub mod words;

use crate::facts::tick::Tick;
use crate::json::{list, object};
use class::Class;
use ends::Ends;
use equal::Equal;
use events::Events;
use first::First;
use handler::registers::LETTERS;
use handler::{Handler, CLASSES};
use lines::Lines;
use pings::Pings;
use refusals::Refusals;
use shadow::Shadow;
use switches::Switches;
pub use telling::Telling;

#[derive(Default)]
pub struct Summary {
    first: First,
    classes: [Class; CLASSES],
    events: Events,
    equal: Equal,
    switches: Switches,
    pings: Pings,
    lines: Lines,
    shadow: Shadow,
    refusals: Refusals,
    ends: Ends,
}

impl Summary {
    /// Of no tick yet; the handler is the one before the first.
    pub fn new(handler: &Handler) -> Summary {
        let mut summary = Summary::default();
        summary.ends.set(handler);
        summary
    }

    /// A tick before the first that the summary is of: its state is the one that stands.
    pub fn pass(&mut self, t: &Tick) {
        self.ends.set(&t.after);
    }

    pub fn add(&mut self, t: &Tick) {
        for (k, class) in self.classes.iter_mut().enumerate() {
            class.add(t, k);
        }
        self.first.add(t);
        self.events.add(t);
        self.equal.add(t);
        self.switches.add(t);
        self.pings.add(t);
        self.lines.add(t);
        self.shadow.add(t);
        self.refusals.add(t);
        self.pass(t);
    }

    /// The same for programs: names and values of one object.
    pub fn json(&self) -> Vec<(&'static str, String)> {
        let class = |(k, class): (usize, &Class)| {
            let mut all = class.json(k);
            all.extend(self.ends.json(k));
            object(&all)
        };
        let mut all = vec![
            ("classes", list(self.classes.iter().enumerate().map(class))),
            ("events", self.events.json()),
            ("equal_wires", self.equal.json()),
        ];
        all.extend(self.switches.json());
        all.push(("ping_timer", self.pings.json()));
        all.push(("escalation_wires", self.lines.json()));
        all.push(("shadow_writes", self.shadow.json()));
        all.push(("refusals", self.refusals.json()));
        all
    }

    pub fn lines(&self, told: &Telling) -> Vec<String> {
        let mut all = Vec::new();
        for (k, class) in self.classes.iter().enumerate() {
            all.extend(class.lines(told, k));
        }
        all.extend(self.events.lines(told));
        all.extend(self.equal.lines(told));
        all.extend(self.switches.lines(told));
        all.extend(self.pings.lines(told));
        all.extend(self.lines.lines(told));
        all.push(self.shadow.line(told));
        all.extend(self.refusals.lines(told));
        all.extend(self.ends.lines());
        all
    }

    /// In short: the first event, the classes with a start or a clear, all others in one line, events that started nothing,
    /// equal wires and what was switched off, the ping timer where it is on, lines with wrong answers, stages that came to
    /// nothing, and refusals.
    pub fn short_lines(&self, told: &Telling) -> Vec<String> {
        let mut all = vec![self.first.words(told)];
        let mut quiet = Vec::new();
        for (k, class) in self.classes.iter().enumerate() {
            match class.is_quiet() {
                true => quiet.push(LETTERS[k].to_string()),
                false => all.extend(class.short_lines(told, k)),
            }
        }
        if !quiet.is_empty() {
            let es = if quiet.len() > 1 { "es" } else { "" };
            let quiet = quiet.join(", ");
            all.push(format!("class{es} {quiet}: no start; no clear"));
        }
        all.extend(self.events.short_line(told));
        all.extend(self.equal.short_line(told));
        all.extend(self.switches.short_lines(told));
        all.extend(self.pings.short_lines(told));
        all.extend(self.lines.short_lines(told));
        all.extend(self.shadow.short_line(told));
        all.push(self.refusals.line(told));
        all
    }
}
