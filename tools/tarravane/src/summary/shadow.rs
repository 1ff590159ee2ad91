//! Shadow writes: how many were staged and committed, when a stage was dropped, and which are open at the end.
use super::kept::Kept;
use super::telling::Telling;
use crate::facts::stages::{change, open, Change};
use crate::facts::tick::Tick;
use crate::json::{object, text};
use handler::registers::Register;

#[derive(Default)]
pub struct Shadow {
    staged: u64,
    committed: u64,
    dropped: Kept<u64>,
    /// The registers that have a stage after the last tick.
    open: Kept<Register>,
}

impl Shadow {
    pub fn add(&mut self, t: &Tick) {
        match change(t) {
            Some(Change::Staged) => self.staged += 1,
            Some(Change::Committed) => self.committed += 1,
            Some(Change::Dropped) => self.dropped.push(t.number),
            None => return,
        }
        self.open = Kept::default();
        for (register, _) in open(&t.after) {
            self.open.push(register);
        }
    }

    pub fn json(&self) -> String {
        object(&[
            ("staged", self.staged.to_string()),
            ("committed", self.committed.to_string()),
            ("dropped", self.dropped.json(u64::to_string)),
            ("open", self.open.json(|it| text(it))),
        ])
    }

    /// Where some came to nothing, or may yet: a stage that was dropped, or is open at the end.
    pub fn short_line(&self, told: &Telling) -> Option<String> {
        let done = self.dropped.count() + self.open.count() == 0;
        (!done).then(|| self.line(told))
    }

    pub fn line(&self, told: &Telling) -> String {
        if self.staged == 0 {
            return "shadow writes: none".to_string();
        }
        format!(
            "shadow writes: {} staged, {} committed; dropped {}; open at the end {}",
            self.staged,
            self.committed,
            told.at(&self.dropped),
            self.open.words(|it| told.style.naming.name(*it))
        )
    }
}
