//! What an access answers, in words.
use super::stages::{change, Change};
use super::tick::Tick;
use crate::names;
use handler::Access;

/// Why the access was refused, where it was.
pub fn refused(t: &Tick) -> Option<&'static str> {
    let reads = matches!(t.input.access, Access::Read(_));
    t.word
        .refusal()
        .map(|refusal| names::refusal(refusal, reads))
}

/// What a write that is not refused did: of two equal ones to a shadowed register the first is staged, the second committed.
fn done(t: &Tick) -> &'static str {
    match change(t) {
        Some(Change::Staged) => "staged",
        Some(Change::Committed) => "committed",
        _ => "done",
    }
}

/// In one word: refused, read, done, staged, committed or none.
pub fn outcome(t: &Tick) -> &'static str {
    match (refused(t), t.input.access) {
        (Some(_), _) => "refused",
        (None, Access::Read(_)) => "read",
        (None, Access::Write(..)) => done(t),
        (None, _) => "none",
    }
}

/// In short: why it was refused, the value read, what a write did, `-` where there was no access.
pub fn short(t: &Tick) -> String {
    match (refused(t), t.input.access) {
        (Some(why), _) => why.to_string(),
        (None, Access::Read(register)) => names::read(t.edition, register, t.word.value()),
        (None, Access::Write(..)) => done(t).to_string(),
        (None, _) => "-".to_string(),
    }
}

/// A refusal is named as such, and a value has `unstaged` after it where its reading dropped a stage.
pub fn words(t: &Tick) -> String {
    let short = short(t);
    match (refused(t), change(t)) {
        (Some(_), _) => format!("refused: {short}"),
        (None, Some(Change::Dropped)) => short + ", unstaged",
        (None, _) => short,
    }
}
