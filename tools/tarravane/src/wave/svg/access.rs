//! What a picture shows of the accesses in one tick, or in several that are folded.
use crate::facts::answer;
use crate::facts::locks::locked;
use crate::facts::stages::{change, Change};
use crate::facts::tick::Tick;
use crate::text::access::words;
use handler::registers::Naming;
use handler::Access;

#[derive(Clone, Copy, Debug, PartialEq, Eq)]
pub enum Mark {
    Read,
    Write,
    /// The first of two equal writes, which acts on nothing.
    Staged,
    Refused,
}

/// An access in words.
#[derive(Clone, Debug)]
pub struct Said {
    pub mark: Mark,
    pub words: String,
}

#[derive(Clone, Debug)]
pub struct Accesses {
    pub count: u64,
    pub refused: u64,
    /// Locks that fall.
    pub locks: u64,
    /// The access of a single tick.
    pub one: Option<Said>,
}

fn mark(t: &Tick) -> Option<Mark> {
    match t.input.access {
        _ if t.word.refusal().is_some() => Some(Mark::Refused),
        Access::Write(..) if change(t) == Some(Change::Staged) => Some(Mark::Staged),
        Access::Write(..) => Some(Mark::Write),
        Access::Read(_) => Some(Mark::Read),
        _ => None,
    }
}

fn said(t: &Tick) -> Option<Said> {
    let mark = mark(t)?;
    let access = words(Naming::Ours, t.edition, t.input.access);
    let words = match mark {
        Mark::Refused => format!("{access}: {}", answer::short(t)),
        // Its mark says that it is done.
        Mark::Write if change(t).is_none() => access,
        _ => format!("{access}: {}", answer::words(t)),
    };
    Some(Said { mark, words })
}

impl Accesses {
    pub fn new(t: &Tick) -> Accesses {
        let one = said(t);
        let refused = t.word.refusal().is_some();
        Accesses {
            count: one.is_some().into(),
            refused: refused.into(),
            locks: locked(t).len() as u64,
            one,
        }
    }

    pub fn joined(&self, next: &Accesses) -> Accesses {
        Accesses {
            count: self.count + next.count,
            refused: self.refused + next.refused,
            locks: self.locks + next.locks,
            one: None,
        }
    }
}
