//! The ping timer: when it went on, and what became of its pings.
use super::kept::Kept;
use super::telling::Telling;
use super::words::count;
use crate::facts::tick::Tick;
use crate::facts::timer::{begins, ping, turn, End};
use crate::json::{maybe, object, text};
use crate::names;
use handler::Whose;

#[derive(Default)]
pub struct Pings {
    /// Has the trace's edition a timer?
    told: bool,
    on: Option<u64>,
    sent: u64,
    answered: u64,
    /// Closed by an escalation on the line.
    closed: u64,
    /// Turns that ended without a ping.
    unsent: u64,
    failed: Kept<(Whose, u64)>,
    /// Whose ping is open after the last tick.
    open: Option<Whose>,
}

impl Pings {
    pub fn add(&mut self, t: &Tick) {
        self.told = t.edition.has_timer();
        if begins(t) {
            self.on = self.on.or(Some(t.number));
        }
        let ping = match ping(t) {
            Some(ping) => ping,
            None => return,
        };
        self.sent += u64::from(ping.sent);
        self.open = turn(&t.after).filter(|_| ping.open && ping.end.is_none());
        match ping.end {
            Some(End::Answered) => self.answered += 1,
            Some(End::Closed) => self.closed += 1,
            Some(End::Unsent) => self.unsent += 1,
            Some(End::Failed) => self.failed.push((ping.of, t.number)),
            None => {}
        }
    }

    pub fn json(&self) -> String {
        let failed = |(of, tick): &(Whose, u64)| {
            object(&[("of", text(names::pinged(*of))), ("tick", tick.to_string())])
        };
        object(&[
            ("on", maybe(self.on)),
            ("pings", self.sent.to_string()),
            ("answered", self.answered.to_string()),
            ("failed", self.failed.json(failed)),
            ("closed", self.closed.to_string()),
            ("unsent", self.unsent.to_string()),
            ("open", maybe(self.open.map(|of| text(names::pinged(of))))),
        ])
    }

    /// How many pings there were, and what became of them.
    fn pings(&self) -> String {
        let ended = [
            (self.answered, "answered"),
            (self.failed.count(), "failed"),
            (self.closed, "closed by an escalation"),
        ];
        let ended = ended.into_iter().filter(|(number, _)| *number > 0);
        let mut all: Vec<String> = ended
            .map(|(number, how)| format!("{number} {how}"))
            .collect();
        all.extend(
            self.open
                .map(|of| format!("that of {} open at the end", names::pinged(of))),
        );
        match all.is_empty() {
            true => count(self.sent, "ping"),
            false => format!("{}: {}", count(self.sent, "ping"), all.join(", ")),
        }
    }

    /// Where the timer is on at last, that and each failed ping; where it is off, that. In an older edition nothing.
    pub fn lines(&self, told: &Telling) -> Vec<String> {
        match self.on {
            Some(_) => self.short_lines(told),
            None if self.told => vec!["ping timer: off".to_string()],
            None => Vec::new(),
        }
    }

    /// Nothing where the timer is off.
    pub fn short_lines(&self, told: &Telling) -> Vec<String> {
        let on = match self.on {
            Some(on) => told.tick(on),
            None => return Vec::new(),
        };
        let unsent = match self.unsent {
            0 => String::new(),
            number => format!("; {} without a ping", count(number, "turn")),
        };
        let mut all = vec![format!("ping timer: on at {on}; {}{unsent}", self.pings())];
        if self.failed.count() > 0 {
            let one = |(of, tick): &(Whose, u64)| {
                format!("{} at {}", names::pinged(*of), told.tick(*tick))
            };
            all.push(format!("  failed: {}", self.failed.words(one)));
        }
        all
    }
}
