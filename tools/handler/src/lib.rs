//! The proved alert handler, for Rust. Every call asks the proved library `boundary`; nothing is decided here. Beside them
//! `registers` has the names and numbers of the registers, and `boot` the accesses of a boot, for tools.
//!
//! The promises stand in `include/tarravane.h` and are proved in `crates/boundary_c`.
#![deny(missing_docs)]

mod alert_names;
mod answer;
pub mod boot;
mod calm;
mod content;
mod edition;
mod heard;
mod input;
mod installed;
#[cfg(test)]
mod layout;
mod library;
mod lifecycle;
mod line_receivers;
mod output;
mod receivers;
pub mod registers;
mod senders;
mod state;
mod timer;
mod word;
mod writer;

pub use alert_names::ALERT_NAMES;
pub use answer::{Answer, Refusal};
pub use calm::{Calmed, Change, CHANGES};
pub use content::{read_dump, Content, ShownClass, DUMP_MOST, REGISTERS};
pub use edition::Edition;
pub use heard::Heard;
pub use input::{Access, Input, Sample, Wires};
pub use installed::Installed;
pub use lifecycle::Lifecycle;
pub use line_receivers::{LineReceivers, Listened};
pub use output::Output;
pub use receivers::{Place, Receivers};
pub use senders::{LinePairs, Senders};
pub use state::{
    AlertStages, Alerts, Class, ClassStages, Handler, Interrupts, Links, LocalStages, Locals,
    Stages, ALERTS, CLASSES, LINES, LOCALS, PHASES, WORDS,
};
pub use timer::{Timer, Turn, Whose};
pub use word::Word;
pub use writer::{record, record_numbers, Lists};

/// The local alert that occurs where a line's ping fails.
const LINE_PING_FAILS: usize = 1;

/// What a tick gives.
#[derive(Clone, Copy, Debug, PartialEq, Eq)]
pub struct Ticked {
    /// The state after the tick.
    pub handler: Handler,
    /// What the access answers, from before the tick's events.
    pub answer: Answer,
    /// Interrupts and lines after the tick, and the pairs that go to the alerts and out on the lines.
    pub output: Output,
}

impl Handler {
    /// A handler for `n` alerts, 1 to 248. Refusal 6 leaves a handler of no alerts, otherwise as new.
    pub fn new(n: usize) -> (Handler, Answer) {
        let made = library::new(n);
        (made.handler, Answer(made.answer))
    }

    /// One tick; the access has the register numbers of `registers::MAP`. A shadowed register takes two equal writes: the
    /// first is staged, the second commits. Refusal 7: state unchanged, tick not run, outputs at rest. Refusals 1 to 5, 12 and
    /// 14: the access changes no register, and the tick runs; 3 and 12 drop the stage of the register that it names. The
    /// lines' receive pairs are checked: a wrong one makes local alert 3 occur.
    pub fn tick(self, access: Access, sample: Sample) -> Ticked {
        let (kind, register, value) = access.numbers();
        let given = library::tick(self, kind, register, value, sample);
        Ticked {
            handler: given.handler,
            answer: Answer(given.answer),
            output: given.output,
        }
    }

    /// What the tick of the same access and sample hears. It changes nothing. Refusal 7: nothing is heard.
    pub fn hear(self, access: Access, sample: Sample) -> Heard {
        let (kind, register, value) = access.numbers();
        let given = library::hear(self, kind, register, value, sample);
        Heard {
            events: given.events,
            answers: given.answers,
            locals: given.locals,
            answer: Answer(given.answer),
        }
    }

    /// What the tick of a record of an older edition hears: nobody checks the lines' receive pairs there, and a line's ping is
    /// answered by its bit of `answers`. The library is asked for the tick that hears the same: with the right receive pairs,
    /// and with an open ping that they do not answer.
    pub fn hear_unchecked(self, access: Access, sample: Sample, answers: u32) -> Heard {
        let mut asked = self;
        asked.links.right = 0;
        let receive = self.links.senders.right();
        let mut heard = asked.hear(access, Sample { receive, ..sample });
        let answered = match self.links.turn.whose() {
            Whose::Line(e) => answers >> e & 1 == 1,
            Whose::Alert(_) => false,
        };
        if answered {
            heard.locals &= !(1 << LINE_PING_FAILS);
        }
        heard
    }

    /// A tick for each record of the edition, a word for each. Refusals 7, 8 and 9 leave state and list unchanged; 7 also
    /// where the handler has more alerts than the edition, and where its ping timer is on and the edition has none.
    pub fn batch(self, edition: Edition, bytes: &[u8], out: &mut [Word]) -> (Handler, Answer) {
        let given = library::batch(self, edition, bytes, out);
        (given.handler, Answer(given.answer))
    }

    /// So many calm ticks in one go: no access, these wires of the alerts, the word 0, and receivers at the lines' ends that
    /// answer without fault. A word for each tick in which a line changed stands at the start of the list, and the answer is
    /// how many they are; later entries stay. The time does not grow with the ticks. Refusals 7, 15 (the ping timer is on) and
    /// 18 (the list has fewer than 20 entries), in this order: state and list unchanged, outputs at rest.
    pub fn calm(self, wires: Wires, ticks: u32, list: &mut [Change]) -> Calmed {
        let given = library::calm(self, wires, ticks, list);
        Calmed {
            handler: given.handler,
            answer: Answer(given.answer),
            output: given.output,
        }
    }

    /// Writes the dump of the state to the front of `out`, and answers the bytes written, at most `DUMP_MOST`; later bytes
    /// stay. Refusal 7, then 11 where `out` is too short: either leaves `out` as it was.
    pub fn dump(self, out: &mut [u8]) -> Answer {
        Answer(library::dump(self, out))
    }

    /// Boots: installs document 002's classification of alerts 0 to 57 and its class settings, one access a tick with every
    /// input at rest, reads each register back right after its writes, and stops at the first refusal or difference; what
    /// was written stays. A new handler of 58 alerts or more always gets all of it. Refusals 7 and 13 (fewer than 58
    /// alerts), 7 first: state unchanged, no tick run.
    pub fn install(self, lifecycle: Lifecycle) -> Installed {
        self.install_number(lifecycle.number())
    }

    /// The same by the lifecycle's number. One over 5 is none: PROD_END is installed then, the strictest.
    pub fn install_number(self, lifecycle: u8) -> Installed {
        let given = library::install(self, lifecycle);
        Installed {
            handler: given.handler,
            answer: Answer(given.answer),
            register: given.register,
        }
    }
}
