//! What the words of a summary go by: how ticks are named, and where the reading ended.
use super::kept::Kept;
use crate::style::Style;

pub struct Telling<'a> {
    pub style: &'a Style,
    /// The last tick that was read, where the trace may go on after it.
    pub stopped: Option<u64>,
}

impl Telling<'_> {
    pub fn tick(&self, number: u64) -> String {
        self.style.tick(number)
    }

    /// Ticks, as `3, 5`; `none` of none.
    pub fn ticks(&self, all: &Kept<u64>) -> String {
        all.words(|tick| self.tick(*tick))
    }

    /// The same with `at ` before them, where there are any.
    pub fn at(&self, all: &Kept<u64>) -> String {
        let at = if all.count() > 0 { "at " } else { "" };
        format!("{at}{}", self.ticks(all))
    }

    /// The ticks of a span; `still`: what it is where the reading ends inside it.
    pub fn span(&self, from: u64, to: Option<u64>, still: &str) -> String {
        let from = self.tick(from);
        match (to, self.stopped) {
            (Some(to), _) => format!("{from}-{}", self.tick(to)),
            (None, None) => format!("{from}-end"),
            (None, Some(last)) => format!("from {from}, still {still} at {}", self.tick(last)),
        }
    }
}
