//! One escalation of a class, from its start to its clear.
use super::spans::Spans;
use super::telling::Telling;
use super::words::{self, source_name};
use crate::facts::events::Source;
use crate::facts::starts::{Start, IDLE};
use crate::facts::tick::Tick;
use crate::json::{list, maybe, object, text};
use crate::names;
use crate::style::Style;

pub struct Escalation {
    at: u64,
    start: Start,
    /// The first tick of each phase and of Terminal, as far as the class came.
    entered: Vec<(u32, u64)>,
    cleared: Option<u64>,
    spans: Spans,
}

impl Escalation {
    pub fn new(at: u64, start: Start) -> Escalation {
        Escalation {
            at,
            start,
            entered: Vec::new(),
            cleared: None,
            spans: Spans::default(),
        }
    }

    /// Goes on by a tick, from the one of the start on; false where that is its end.
    pub fn add(&mut self, t: &Tick, k: usize) -> bool {
        let state = t.after.classes[k].state;
        self.spans.add(t, k);
        if state == IDLE {
            self.cleared = Some(t.number);
        } else if state != t.before.classes[k].state {
            self.entered.push((state, t.number));
        }
        state != IDLE
    }

    fn by(&self, told: &Telling) -> String {
        match self.start.by[..] {
            [] => "the timeout".to_string(),
            _ => words::sources(told.style, &self.start.by),
        }
    }

    pub fn json(&self) -> String {
        let source = |source: &Source| text(source_name(&Style::PLAIN, *source));
        let place = |(state, tick): &(u32, u64)| {
            object(&[
                ("state", text(names::whole_state(*state))),
                ("tick", tick.to_string()),
            ])
        };
        object(&[
            ("tick", self.at.to_string()),
            ("by", list(self.start.by.iter().map(source))),
            ("locked", self.start.locked.to_string()),
            ("lock", self.start.lock.to_string()),
            ("entered", list(self.entered.iter().map(place))),
            ("cleared", maybe(self.cleared)),
            ("lines", self.spans.json()),
        ])
    }

    /// The start and the places that it came to, and the lines on the way.
    pub fn words(&self, told: &Telling) -> [String; 2] {
        let Start { locked, lock, .. } = self.start;
        let locked = if locked { "locked" } else { "not locked" };
        let lock = if lock { "LOCK set" } else { "no LOCK" };
        let first =
            |(state, tick): &(u32, u64)| format!("{} {}", names::state(*state), told.tick(*tick));
        let mut places: Vec<String> = self.entered.iter().map(first).collect();
        let cleared = self.cleared.map(|tick| told.tick(tick));
        places.extend(cleared.map(|tick| format!("cleared {tick}")));
        let places = places.join(", ");
        let (at, by) = (told.tick(self.at), self.by(told));
        [
            format!("start at {at} by {by}; {locked}, {lock}; {places}"),
            self.spans.words(told),
        ]
    }
}
