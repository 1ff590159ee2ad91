//! Reference model of the alert handler, one tick at a time.
//!
//! Written from the paper "The product to build and its rules" and the change
//! requests that have landed, alone. One register access and one sample of
//! wires and entropy go in; an answer, four interrupts, four escalation lines,
//! the acknowledge and ping pairs of the alerts and the pairs of the escalation
//! lines come out.
//!
//! The calls:
//!
//! * [`Handler::new`] makes a handler, [`Handler::tick`] runs one tick of it.
//! * [`batch`] runs the records of a trace, [`record`] writes such records.
//! * [`install`] sets a handler up at boot.
//! * [`skip()`] runs many ticks without access on steady wires, one by one, and
//!   lists the ticks at which a line changed.
//! * [`dump()`] writes what a dump shows of a state, [`read_dump`] gives the
//!   [`Content`] of a dump back.

mod access;
pub mod answer;
pub mod answering;
pub mod carried;
pub mod class;
pub mod content;
pub mod dump;
mod dump_bits;
pub mod dump_reader;
pub mod edition;
mod escalation;
pub mod escalation_receiver;
pub mod handler;
pub mod installer;
pub mod line_pairs;
mod pings;
pub mod policy;
pub mod receiver;
pub mod register;
pub mod sender;
pub mod skip;
pub mod stages;
pub mod timer;
pub mod trace;
pub mod wires;
pub mod writer;

pub use answer::Refusal;
pub use answering::{Answering, Stand};
pub use carried::carried;
pub use class::Class;
pub use content::Content;
pub use dump::dump;
pub use dump_reader::read_dump;
pub use edition::Edition;
pub use escalation_receiver::EscalationReceiver;
pub use handler::{Access, Handler, Outcome, Source, Ticked};
pub use installer::{install, Installed};
pub use line_pairs::LinePairs;
pub use receiver::{Place, Receiver};
pub use sender::Sender;
pub use skip::skip;
pub use stages::Stages;
pub use timer::Timer;
pub use trace::batch;
pub use wires::{Pairs, Sample, Wires};
pub use writer::record;
