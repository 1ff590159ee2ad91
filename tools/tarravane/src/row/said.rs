//! What a row says of access and wires.
use crate::names;
use crate::text::{access, line, sample, wires};
use handler::registers::Naming;
use handler::{Access, Edition, Input};

/// The line of a text.
pub fn line(naming: Naming, edition: Edition, x: &Input) -> String {
    line::words(naming, edition, x)
}

/// The line of a text without its entropy, of which most ticks make nothing.
pub fn whole(naming: Naming, edition: Edition, x: &Input) -> String {
    access::words(naming, edition, x.access) + &sample::words_without_entropy(x)
}

/// Wires as the number of alerts that are off rest, after these words; nothing where all are at rest.
fn number(words: &str, x: &Input) -> String {
    match wires::count(x.sample.alerts) {
        0 => String::new(),
        alerts => format!("{words}~{alerts}"),
    }
}

/// The access, the wires as a number, and what the lines send back.
pub fn counted(naming: Naming, edition: Edition, x: &Input) -> String {
    access::words(naming, edition, x.access) + &number(" wires ", x) + &sample::words_of_lines(x)
}

/// The access with r for read and w for write, and the wires as a number.
pub fn shortest(naming: Naming, edition: Edition, x: &Input) -> String {
    let words = access::words(naming, edition, x.access);
    let access = match words.split_once(' ') {
        Some(("read", rest)) => format!("r {rest}"),
        Some(("write", rest)) => format!("w {rest}"),
        _ => words,
    };
    access + &number(" ", x)
}

/// The same with a register by its number, where its name has no room.
pub fn numbered(edition: Edition, x: &Input) -> String {
    let access = match x.access {
        Access::Read(number) => format!("r {number}"),
        Access::Write(number, value) => {
            format!("w {number} {}", names::written(edition, number, value))
        }
        other => access::words(Naming::Ours, edition, other),
    };
    access + &number(" ", x)
}

/// All bytes of the record, and its wires, entropy and what the lines send back, which count also where it is malformed.
pub fn raw(record: &[u8], x: &Input) -> String {
    line::raw_words(record) + &sample::words(x)
}
