//! What a text says that a replay of its trace does not heed.
use crate::names;
use crate::say::say;
use crate::text::line::Line;
use crate::text::wires;
use handler::registers::{Naming, Register};
use handler::{Access, Edition};

/// The most lines of a text that are warned of; those after them are counted.
const MOST: usize = 10;

/// The first lines of a kind, and how many more there are.
#[derive(Default)]
struct Some {
    first: Vec<String>,
    more: u64,
}

impl Some {
    fn add(&mut self, line: String) {
        match self.first.len() < MOST {
            true => self.first.push(line),
            false => self.more += 1,
        }
    }

    fn say(&self, of: &str) {
        self.first.iter().for_each(|line| say(line));
        if self.more > 0 {
            say(&format!("{} more lines {of}", self.more));
        }
    }
}

#[derive(Default)]
pub struct Warnings {
    /// Of the whole text.
    all: Vec<String>,
    /// Of lines that name alerts at N and above, and of those that stage and are never committed.
    alerts: Some,
    stages: Some,
}

/// Is it a register of an alert at N or above?
fn is_above(edition: Edition, n: u8, register: u16) -> bool {
    let register = edition.registers().register(register);
    matches!(register, Some(Register::Alert(_, i)) if i >= usize::from(n))
}

/// What a tick says of alerts at N and above.
fn unheeded(edition: Edition, n: u8, line: &Line) -> Vec<String> {
    let mut all = Vec::new();
    let input = match line {
        Line::Tick(input, _) => input,
        _ => return all,
    };
    if let Access::Read(register) | Access::Write(register, _) = input.access {
        if is_above(edition, n, register) {
            let name = names::register(Naming::Ours, edition, register);
            all.push(format!("{name} is no register"));
        }
    }
    if let Some(i) = wires::first_off_rest(input.sample.alerts, usize::from(n)) {
        all.push(format!("the wires of alert {i} count for nothing"));
    }
    all
}

impl Warnings {
    pub fn add(&mut self, warning: String) {
        self.all.push(warning);
    }

    /// Looks at a line; where N is refused no tick runs at all, and that is said once.
    pub fn look(&mut self, number: u64, edition: Edition, n: u8, line: &Line) {
        if !(1..=edition.alerts()).contains(&usize::from(n)) {
            return;
        }
        let found = unheeded(edition, n, line);
        if found.is_empty() {
            return;
        }
        let found = found.join(", ");
        self.alerts
            .add(format!("line {number}: alerts is {n}: {found}"));
    }

    /// A line that stages and is never committed.
    pub fn add_stage(&mut self, warning: String) {
        self.stages.add(warning);
    }

    pub fn say(&self) {
        self.alerts.say("of such alerts");
        self.stages.say("that are never committed");
        self.all.iter().for_each(|line| say(line));
    }
}
