//! The first and the last event of each alert, and of each local alert that occurs; those that set nothing or reached no
//! class, with their ticks.
use super::kept::Kept;
use super::seen::Seen;
use super::telling::Telling;
use super::words::{count, source_name};
use crate::facts::events::{alerts, is_enabled, locals, Source};
use crate::facts::settings;
use crate::facts::tick::Tick;
use crate::json::{list, object, text};
use crate::style::Style;
use handler::{Handler, ALERTS, LOCALS};

#[derive(Default)]
struct Of {
    all: Seen,
    /// Those that came while the alert was disabled: they set nothing.
    disabled: Kept<u64>,
    /// Those that came while it was enabled and its class had EN 0 or no line: they set the cause, and nothing else.
    class_off: Kept<u64>,
}

pub struct Events {
    alerts: Vec<Of>,
    locals: Vec<Of>,
}

impl Default for Events {
    fn default() -> Events {
        let new = |number: usize| (0..number).map(|_| Of::default()).collect();
        Events {
            alerts: new(ALERTS),
            locals: new(LOCALS),
        }
    }
}

/// Does the source's class take events?
fn is_class_on(h: &Handler, class: u8) -> bool {
    settings::is_on(&h.classes[usize::from(class)])
}

impl Of {
    fn add(&mut self, tick: u64, enabled: bool, class_on: bool) {
        self.all.add(tick);
        match (enabled, class_on) {
            (false, _) => self.disabled.push(tick),
            (true, false) => self.class_off.push(tick),
            (true, true) => {}
        }
    }

    /// Those of no consequence.
    fn lost(&self, told: &Telling) -> String {
        let lists = [
            (&self.disabled, "while disabled"),
            (&self.class_off, "while its class was off"),
        ];
        let some = lists.iter().filter(|(ticks, _)| ticks.count() > 0);
        some.map(|(ticks, when)| format!("; {} {when}, {}", ticks.count(), told.at(ticks)))
            .collect()
    }

    fn words(&self, told: &Telling, source: Source) -> String {
        let event = match source {
            Source::Alert(_) => "event",
            Source::Local(_) => "occurrence",
        };
        let name = source_name(told.style, source);
        let [first, last] = [self.all.first, self.all.last].map(|tick| told.tick(tick));
        let ticks = match self.all.count {
            1 => format!("at {first}"),
            _ => format!("first at {first}, last at {last}"),
        };
        let count = count(self.all.count, event);
        format!("{name}: {count}, {ticks}{}", self.lost(told))
    }
}

fn json((source, of): (Source, &Of)) -> String {
    let mut all = vec![("source", text(source_name(&Style::PLAIN, source)))];
    all.extend(of.all.json());
    all.push(("while_disabled", of.disabled.json(u64::to_string)));
    all.push(("while_class_off", of.class_off.json(u64::to_string)));
    object(&all)
}

impl Events {
    pub fn json(&self) -> String {
        list(self.seen().map(json))
    }

    pub fn add(&mut self, t: &Tick) {
        let h = &t.after;
        for i in alerts(t) {
            let on = is_class_on(h, h.alerts.class[i]);
            self.alerts[i].add(t.number, is_enabled(h, i), on);
        }
        for j in locals(t) {
            let on = is_class_on(h, h.locals.class[j]);
            self.locals[j].add(t.number, true, on);
        }
    }

    /// The sources that had an event.
    fn seen(&self) -> impl Iterator<Item = (Source, &Of)> {
        let alerts = (0..).map(Source::Alert).zip(&self.alerts);
        let locals = (0..).map(Source::Local).zip(&self.locals);
        alerts.chain(locals).filter(|(_, of)| of.all.count > 0)
    }

    pub fn lines(&self, told: &Telling) -> Vec<String> {
        let all = self.seen().map(|(source, of)| of.words(told, source));
        let all: Vec<String> = all.map(|words| format!("  {words}")).collect();
        match all[..] {
            [] => vec!["events: none".to_string()],
            _ => [vec!["events:".to_string()], all].concat(),
        }
    }

    /// Alerts with events of no consequence, in one line.
    pub fn short_line(&self, told: &Telling) -> Option<String> {
        let lost = self.seen().filter(|(_, of)| !of.lost(told).is_empty());
        let all: Vec<String> = lost.map(|(source, of)| of.words(told, source)).collect();
        (!all.is_empty()).then(|| format!("events that started nothing: {}", all.join("; ")))
    }
}
