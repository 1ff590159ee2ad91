//! What was switched on, off and on again, and which settings were changed once more.
use super::kept::Kept;
use super::telling::Telling;
use crate::facts::settings::{changed, switched, Switch};
use crate::facts::tick::Tick;
use crate::json::{object, text};
use crate::style::Style;
use handler::registers::{Register, LETTERS};

/// A switch and its tick.
type Switched = (Switch, u64);

#[derive(Default)]
pub struct Switches {
    on: Kept<Switched>,
    off: Kept<Switched>,
    again: Kept<Switched>,
    /// Those that were switched off before; there are no more than switches.
    were_off: Vec<Switch>,
    /// Settings with a first change, of which every later one is told. There are no more than registers.
    set: Vec<Register>,
    anew: Kept<(Register, u64)>,
}

fn name(style: &Style, switch: Switch) -> String {
    match switch {
        Switch::Alert(i) => style.alert(i),
        Switch::Local(j) => format!("LOC_ALERT{j}"),
        Switch::Class(k) => format!("class {}", LETTERS[k]),
        Switch::Lock(k) => format!("LOCK of class {}", LETTERS[k]),
        Switch::LineOf(k, e) => format!("line {e} of class {}", LETTERS[k]),
        Switch::Interrupt(k) => format!("interrupt {}", LETTERS[k]),
        Switch::PingTimer => "ping timer".to_string(),
    }
}

impl Switches {
    pub fn add(&mut self, t: &Tick) {
        let changed = match changed(t) {
            Some(changed) => changed,
            None => return,
        };
        let all = switched(t);
        for (switch, on) in &all {
            let was_off = self.were_off.contains(switch);
            let list = match (on, was_off) {
                (false, _) => &mut self.off,
                (true, true) => &mut self.again,
                (true, false) => &mut self.on,
            };
            list.push((*switch, t.number));
            if !on && !was_off {
                self.were_off.push(*switch);
            }
        }
        match self.set.contains(&changed.register) {
            false => self.set.push(changed.register),
            true if all.is_empty() => self.anew.push((changed.register, t.number)),
            // A switch is told as such.
            true => {}
        }
    }

    pub fn json(&self) -> Vec<(&'static str, String)> {
        let at =
            |what: String, tick: u64| object(&[("what", text(what)), ("tick", tick.to_string())]);
        let switch = |(it, tick): &Switched| at(name(&Style::PLAIN, *it), *tick);
        vec![
            ("switched_on", self.on.json(switch)),
            ("switched_off", self.off.json(switch)),
            ("switched_on_again", self.again.json(switch)),
            (
                "changed_again",
                self.anew.json(|(it, tick)| at(it.to_string(), *tick)),
            ),
        ]
    }

    fn list(told: &Telling, all: &Kept<Switched>) -> String {
        all.words(|(switch, tick)| format!("{} at {}", name(told.style, *switch), told.tick(*tick)))
    }

    /// What was switched off or on again, or set anew, where anything was.
    pub fn short_lines(&self, told: &Telling) -> Vec<String> {
        let register = |(register, tick): &(Register, u64)| {
            let name = told.style.naming.name(*register);
            format!("{name} at {}", told.tick(*tick))
        };
        let all = [
            (&self.off, "switched off"),
            (&self.again, "switched on again"),
        ];
        let all = all.iter().filter(|(list, _)| list.count() > 0);
        let mut lines: Vec<String> = all
            .map(|(list, title)| format!("{title}: {}", Switches::list(told, list)))
            .collect();
        if self.anew.count() > 0 {
            lines.push(format!(
                "settings changed again: {}",
                self.anew.words(register)
            ));
        }
        lines
    }

    pub fn lines(&self, told: &Telling) -> Vec<String> {
        let mut all = vec![format!("switched on: {}", Switches::list(told, &self.on))];
        if self.off.count() == 0 {
            all.push("switched off: none".to_string());
        }
        all.extend(self.short_lines(told));
        all
    }
}
