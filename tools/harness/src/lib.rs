//! Test harness of the alert handler: generated traces go through a program
//! and through the reference, and both outputs are compared to the byte.
//! Damaged states, boots, dumps and lists for the trace writer go through the proved
//! library and the reference in this process, and both are timed side by side. Words
//! that a program gave once are kept, and another one's are compared with them.

pub mod bench;
pub mod boot;
pub mod calls;
pub mod calm;
pub mod compare;
pub mod configure;
pub mod dump;
pub mod entries;
pub mod generate;
pub mod golden;
pub mod met;
pub mod opened;
pub mod record;
pub mod report;
pub mod rng;
pub mod spoil;
pub mod states;
pub mod turns;
pub mod wired;
pub mod write;
