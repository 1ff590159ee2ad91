//! A list that keeps its first and its last few entries and counts those between.
use crate::json::{list, object};
use std::collections::VecDeque;

/// The most first entries that are kept, and the most last ones.
pub const FIRST: usize = 8;
pub const LAST: usize = 3;

pub struct Kept<T> {
    first: Vec<T>,
    last: VecDeque<T>,
    count: u64,
}

impl<T> Default for Kept<T> {
    fn default() -> Kept<T> {
        Kept {
            first: Vec::new(),
            last: VecDeque::new(),
            count: 0,
        }
    }
}

impl<T> Kept<T> {
    pub fn push(&mut self, entry: T) {
        self.count += 1;
        if self.first.len() < FIRST {
            self.first.push(entry);
            return;
        }
        self.last.push_back(entry);
        if self.last.len() > LAST {
            self.last.pop_front();
        }
    }

    /// The entries from the first on that are kept.
    pub fn first(&self) -> &[T] {
        &self.first
    }

    /// Those of the last ones that are not among them.
    pub fn last(&self) -> impl Iterator<Item = &T> {
        self.last.iter()
    }

    /// All that are kept.
    pub fn iter(&self) -> impl Iterator<Item = &T> {
        self.first.iter().chain(&self.last)
    }

    pub fn iter_mut(&mut self) -> impl Iterator<Item = &mut T> {
        self.first.iter_mut().chain(&mut self.last)
    }

    /// The last entry of all.
    pub fn newest_mut(&mut self) -> Option<&mut T> {
        self.last.back_mut().or_else(|| self.first.last_mut())
    }

    pub fn count(&self) -> u64 {
        self.count
    }

    /// How many are counted only.
    pub fn between(&self) -> u64 {
        self.count - (self.first.len() + self.last.len()) as u64
    }

    /// The entries in these words, and how many there are between; `none` of none.
    pub fn words(&self, of: impl Fn(&T) -> String) -> String {
        let [first, last] = [
            self.first.iter().map(&of).collect::<Vec<_>>().join(", "),
            self.last().map(&of).collect::<Vec<_>>().join(", "),
        ];
        match (self.count, self.between()) {
            (0, _) => "none".to_string(),
            _ if last.is_empty() => first,
            (_, 0) => format!("{first}, {last}"),
            (_, more) => format!("{first} and {more} more, then {last}"),
        }
    }
}

/// As JSON: how many there are, the first, and the last.
impl<T> Kept<T> {
    pub fn json(&self, of: impl Fn(&T) -> String) -> String {
        object(&[
            ("count", self.count.to_string()),
            ("first", list(self.first.iter().map(&of))),
            ("last", list(self.last.iter().map(&of))),
        ])
    }
}

#[cfg(test)]
mod tests {
    use super::*;

    #[test]
    fn the_first_and_the_last_are_kept_and_the_others_counted() {
        let mut kept = Kept::default();
        assert_eq!(kept.words(u64::to_string), "none");
        for number in 1..=8 {
            kept.push(number);
        }
        assert_eq!(kept.words(u64::to_string), "1, 2, 3, 4, 5, 6, 7, 8");
        (9..=11).for_each(|number| kept.push(number));
        assert_eq!(
            kept.words(u64::to_string),
            "1, 2, 3, 4, 5, 6, 7, 8, 9, 10, 11"
        );
        assert_eq!(kept.between(), 0);
        (12..=20).for_each(|number| kept.push(number));
        assert_eq!(
            kept.words(u64::to_string),
            "1, 2, 3, 4, 5, 6, 7, 8 and 9 more, then 18, 19, 20"
        );
        assert_eq!((kept.iter().count(), kept.count()), (11, 20));
        assert_eq!(kept.newest_mut(), Some(&mut 20));
    }
}
