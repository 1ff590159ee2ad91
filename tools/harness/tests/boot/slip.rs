//! An installer with a slip: the tools' plan, run tick by tick in the proved
//! handler, with one thing done otherwise.

use handler::boot::{entries, inputs, Entry};
use handler::{Access, Answer, Handler, Input, Installed, Lifecycle};
use harness::boot::reference_install;

/// What the installer does otherwise, after the name of the slip.
pub enum Slip {
    /// It writes other values, or in another order.
    Plans(&'static str, fn(&mut Vec<Entry>, Lifecycle)),
    /// It takes other ticks for an entry.
    Ticks(&'static str, fn(Entry) -> Vec<Input>),
    /// It goes on after some answers to a write that are refusals.
    GoesOn(&'static str, fn(i64) -> bool),
    /// It gives something else, of the state before and what is right.
    Gives(&'static str, fn(&Handler, Installed) -> Installed),
    /// It takes the number of a lifecycle for another one.
    Takes(&'static str, fn(u8) -> u8),
}

/// Nothing is done otherwise.
pub const RIGHT: Slip = Slip::Plans("no slip", |_, _| {});

impl Slip {
    /// What goes wrong.
    pub fn name(&self) -> &'static str {
        match self {
            Slip::Plans(name, _)
            | Slip::Ticks(name, _)
            | Slip::GoesOn(name, _)
            | Slip::Gives(name, _)
            | Slip::Takes(name, _) => name,
        }
    }
}

/// The lifecycle that is installed for a number.
fn lifecycle(number: u8) -> Lifecycle {
    let known = Lifecycle::ALL.get(usize::from(number));
    known.copied().unwrap_or(Lifecycle::ProdEnd)
}

/// An installer with one slip, and its plan for each lifecycle.
pub struct Installer<'a> {
    slip: &'a Slip,
    plans: Vec<Vec<Entry>>,
}

impl Installer<'_> {
    /// The installer with this slip.
    pub fn with(slip: &Slip) -> Installer<'_> {
        let plan = |lifecycle: Lifecycle| {
            let new = Handler::new(58).0;
            let mut plan = entries(&reference_install(new, lifecycle.number()).handler);
            if let Slip::Plans(_, change) = slip {
                change(&mut plan, lifecycle);
            }
            plan
        };
        let plans = Lifecycle::ALL.into_iter().map(plan).collect();
        Installer { slip, plans }
    }

    /// What it gives.
    pub fn install(&self, state: Handler, number: u8) -> Installed {
        let column = match self.slip {
            Slip::Takes(_, other) => lifecycle(other(number)),
            _ => lifecycle(number),
        };
        let right = match refused(&state) {
            Some(answer) => stopped(state, answer, 0),
            None => self.run(state, &self.plans[column as usize]),
        };
        match self.slip {
            Slip::Gives(_, other) => other(&state, right),
            _ => right,
        }
    }

    fn run(&self, mut state: Handler, plan: &[Entry]) -> Installed {
        for entry in plan {
            let ticks = match self.slip {
                Slip::Ticks(_, other) => other(*entry),
                _ => inputs(*entry),
            };
            for tick in ticks {
                let given = state.tick(tick.access, tick.sample);
                state = given.handler;
                if let Some(register) = self.stops(tick.access, given.answer, entry.1) {
                    return stopped(state, given.answer, register);
                }
            }
        }
        stopped(state, Answer(0), 0)
    }

    /// The register, where the installer stops at this answer.
    fn stops(&self, access: Access, answer: Answer, value: u32) -> Option<u16> {
        let goes_on = matches!(self.slip, Slip::GoesOn(_, after) if after(answer.0));
        match access {
            Access::Write(register, _) => (answer.0 < 0 && !goes_on).then_some(register),
            Access::Read(register) => (answer.0 != value.into()).then_some(register),
            _ => None,
        }
    }
}

fn stopped(handler: Handler, answer: Answer, register: u16) -> Installed {
    Installed {
        handler,
        answer,
        register,
    }
}

/// Refusals 7 and 13, in this order. A batch of no records says the first.
fn refused(state: &Handler) -> Option<Answer> {
    let (_, answer) = state.batch(handler::Edition::NEWEST, &[], &mut []);
    let few = (state.n < 58).then_some(Answer(-13));
    Some(answer).filter(|answer| answer.0 < 0).or(few)
}
