//! A trace as text: `edition E` where it is not the newest, `alerts N`, then a line for each tick with its access, the wires
//! that are off rest, what the ping timer is given and what the lines send back; `raw` and `cut` for bytes that are no well-formed record. Each part goes both ways: `parse` takes
//! words, `words` gives them.
pub mod access;
pub mod alerts;
pub mod edition;
pub mod hex;
pub mod line;
pub mod lines;
mod pings;
pub mod receive;
pub mod repeat;
pub mod sample;
pub mod wires;
pub mod word;

/// Is it the first line of a text, good or bad?
pub fn begins(line: &str) -> bool {
    matches!(word::split(line).next(), Some("edition" | "alerts"))
}
