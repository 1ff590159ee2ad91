//! What a tick tells, for every command that shows ticks. It is read off the library's states and words, and its account of
//! what was heard; wires and accesses are decoded by plain Rust.
pub mod answer;
pub mod changes;
pub mod clears;
pub mod events;
pub mod lines;
pub mod locks;
pub mod pairs;
pub mod receivers;
pub mod settings;
pub mod stages;
pub mod starts;
pub mod tick;
pub mod ticks;
pub mod timer;
pub mod wires;

#[cfg(test)]
pub mod played;
#[cfg(test)]
mod tests;
