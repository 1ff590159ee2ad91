//! What became of one class.
use super::escalation::Escalation;
use super::kept::Kept;
use super::telling::Telling;
use super::words;
use crate::facts::clears::{clear, Clear};
use crate::facts::starts::{start, IDLE};
use crate::facts::tick::Tick;
use crate::json::{maybe, text};
use crate::names;
use handler::registers::LETTERS;

#[derive(Default)]
pub struct Class {
    /// The first tick, and the state before it where that is not Idle.
    met: Option<(u64, u32)>,
    starts: Kept<Escalation>,
    /// Does the last escalation go on?
    goes_on: bool,
    accepted: Kept<u64>,
    refused: Kept<u64>,
}

impl Class {
    pub fn add(&mut self, t: &Tick, k: usize) {
        self.met = self.met.or(Some((t.number, t.before.classes[k].state)));
        match clear(t, k) {
            Some(Clear::Accepted) => self.accepted.push(t.number),
            Some(Clear::Refused) => self.refused.push(t.number),
            None => {}
        };
        if let Some(start) = start(t, k) {
            self.starts.push(Escalation::new(t.number, start));
            self.goes_on = true;
        }
        if let Some(last) = self.starts.newest_mut() {
            self.goes_on = self.goes_on && last.add(t, k);
        }
    }

    /// Has it neither a start nor a clear, and was it Idle as the first tick began?
    pub fn is_quiet(&self) -> bool {
        let quiet = self.starts.count() + self.accepted.count() + self.refused.count() == 0;
        quiet && self.before().is_none()
    }

    /// The first tick and the state that it meets, where that is not Idle: an escalation or a timeout that goes on.
    fn before(&self) -> Option<(u64, u32)> {
        self.met.filter(|(_, state)| *state != IDLE)
    }

    pub fn json(&self, k: usize) -> Vec<(&'static str, String)> {
        let before = self.before().map(|(_, state)| state);
        vec![
            ("class", text(LETTERS[k])),
            (
                "before",
                maybe(before.map(|it| text(names::whole_state(it)))),
            ),
            ("starts", self.starts.json(Escalation::json)),
            ("clears_accepted", self.accepted.json(u64::to_string)),
            ("clears_refused", self.refused.json(u64::to_string)),
        ]
    }

    /// How many starts and which clears.
    fn title(&self, told: &Telling, k: usize) -> String {
        let starts = words::count(self.starts.count(), "start");
        let [accepted, refused] = [&self.accepted, &self.refused].map(|ticks| told.at(ticks));
        let clears = match self.accepted.count() + self.refused.count() {
            0 => "no clear".to_string(),
            _ => format!("clears accepted {accepted}, refused {refused}"),
        };
        let before = self.before().map(|(tick, state)| {
            let (state, tick) = (names::state(state), told.tick(tick));
            format!("{state} before {tick}; ")
        });
        let before = before.unwrap_or_default();
        format!("class {}: {before}{starts}; {clears}", LETTERS[k])
    }

    /// So many starts that are not shown, before those that follow.
    fn between(number: u64) -> Option<String> {
        let words = || format!("  and {}, then", words::count(number, "more start"));
        (number > 0).then(words)
    }

    pub fn lines(&self, told: &Telling, k: usize) -> Vec<String> {
        let of = |start: &Escalation| {
            let [start, lines] = start.words(told);
            [format!("  {start}"), format!("    {lines}")]
        };
        let mut all = vec![self.title(told, k)];
        all.extend(self.starts.first().iter().flat_map(of));
        all.extend(Class::between(self.starts.between()));
        all.extend(self.starts.last().flat_map(of));
        all
    }

    /// With the first two starts and the last one, in one line each.
    pub fn short_lines(&self, told: &Telling, k: usize) -> Vec<String> {
        let of = |start: &Escalation| {
            let [start, lines] = start.words(told);
            format!("  {start}; {lines}")
        };
        let mut all = vec![self.title(told, k)];
        all.extend(self.starts.iter().take(2).map(of));
        all.extend(Class::between(self.starts.count().saturating_sub(3)));
        let last = self.starts.iter().skip(2).last();
        all.extend(last.map(of));
        all
    }
}
