//! The lines' pairs: when each was on, and the answers that were wrong.
use super::seen::Seen;
use super::telling::Telling;
use super::words::count;
use crate::facts::pairs::{faults, sent, Fault};
use crate::facts::tick::Tick;
use crate::json::{list, maybe, object, text};
use crate::text::receive::levels;
use handler::LINES;

#[derive(Default)]
struct Line {
    /// Ticks in which its escalation pair is (1,0).
    on: Seen,
    wrong: Seen,
    first_wrong: Option<Fault>,
}

impl Line {
    fn is_quiet(&self) -> bool {
        self.on.count == 0 && self.wrong.count == 0
    }

    fn on(&self, told: &Telling) -> String {
        let Seen { count, first, last } = self.on;
        let [first, last] = [first, last].map(|tick| told.tick(tick));
        match count {
            0 => "pair never on".to_string(),
            1 => format!("pair on in 1 tick, {first}"),
            _ => format!("pair on in {count} ticks, first {first}, last {last}"),
        }
    }

    /// What came first in place of the right answer, and how often.
    fn wrong(&self, told: &Telling) -> Option<String> {
        let fault = self.first_wrong?;
        let number = count(self.wrong.count, "wrong answer");
        let (came, right) = (levels(fault.came), levels(fault.right));
        let Seen { count, first, last } = self.wrong;
        let [first, last] = [first, last].map(|tick| told.tick(tick));
        let last = match count {
            1 => String::new(),
            _ => format!(", last at {last}"),
        };
        Some(format!(
            "{number}, first at {first}: {came}, not {right}{last}"
        ))
    }
}

fn json((e, line): (usize, &Line)) -> String {
    let wrong = line.first_wrong.map(|fault| {
        let mut all = line.wrong.json();
        all.push(("came", text(levels(fault.came))));
        all.push(("right", text(levels(fault.right))));
        object(&all)
    });
    object(&[
        ("line", e.to_string()),
        ("pair_on", object(&line.on.json())),
        ("wrong", maybe(wrong)),
    ])
}

#[derive(Default)]
pub struct Lines {
    /// Has the trace's edition receive pairs?
    told: bool,
    all: [Line; LINES],
}

impl Lines {
    pub fn add(&mut self, t: &Tick) {
        self.told = t.edition.has_receive();
        for (e, line) in self.all.iter_mut().enumerate() {
            if sent(t) >> e & 1 == 1 {
                line.on.add(t.number);
            }
        }
        for fault in faults(t) {
            let line = &mut self.all[fault.line];
            line.wrong.add(t.number);
            line.first_wrong = line.first_wrong.or(Some(fault));
        }
    }

    /// The lines whose pairs move; null where the edition has no receive pairs.
    pub fn json(&self) -> String {
        let loud = self.all.iter().enumerate();
        let loud = loud.filter(|(_, line)| !line.is_quiet());
        maybe(self.told.then(|| list(loud.map(json))))
    }

    /// Each line that is not quiet, where the edition has receive pairs.
    pub fn lines(&self, told: &Telling) -> Vec<String> {
        let words = |(e, line): (usize, &Line)| {
            let wrong = line
                .wrong(told)
                .unwrap_or_else(|| "no wrong answer".to_string());
            format!("  line {e}: {}; {wrong}", line.on(told))
        };
        let loud = self.all.iter().enumerate();
        let loud: Vec<String> = loud
            .filter(|(_, line)| !line.is_quiet())
            .map(words)
            .collect();
        match (self.told, loud.is_empty()) {
            (false, _) => Vec::new(),
            (true, true) => vec!["escalation wires: at rest".to_string()],
            (true, false) => [vec!["escalation wires:".to_string()], loud].concat(),
        }
    }

    /// The lines with wrong answers.
    pub fn short_lines(&self, told: &Telling) -> Vec<String> {
        let all = self.all.iter().enumerate();
        all.filter_map(|(e, line)| Some(format!("line {e}: {}", line.wrong(told)?)))
            .collect()
    }
}
