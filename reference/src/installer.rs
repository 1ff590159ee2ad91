//! The installer: sets a handler up at boot as the policy says, through the
//! handler's own ticks.

use crate::answer::Refusal;
use crate::handler::{Access, Handler, CLASSES};
use crate::policy::{Lifecycle, Mark, CLASSIFICATION, SETTINGS};
use crate::wires::Sample;

/// The alerts that the policy names, and the fewest that a boot needs.
pub const ALERTS: usize = CLASSIFICATION.len();

/// REGWEN, EN and CLASS of alert 0; alert i is i numbers further.
const REGWEN: u16 = 256;
const EN: u16 = 512;
const CLASS: u16 = 768;
/// REGWEN of class 0, and CTRL's place after it; class k is 16k further.
const CLASS_REGWEN: u16 = 1280;
const CTRL: u16 = 1;

/// What a boot gives.
#[derive(Clone, Debug, PartialEq, Eq)]
pub struct Installed {
    /// The state reached.
    pub handler: Handler,
    /// 0 after a success; else minus the refusal number, or the value that was
    /// read back and differs.
    pub answer: i64,
    /// The register at which the boot stopped; 0 after a success, 7 and 13.
    pub register: u16,
}

/// One register that the boot sets and then reads back.
#[derive(Clone, Copy, Debug, PartialEq, Eq)]
pub struct Step {
    /// The register number.
    pub register: u16,
    /// The value it gets.
    pub value: u32,
    /// How often it is written: 2 where it is shadowed, 1 for a lock.
    pub writes: usize,
}

impl Step {
    /// The accesses of the step, one a tick.
    pub fn accesses(self) -> Vec<Access> {
        let Step {
            register, value, ..
        } = self;
        let mut list = vec![Access::Write { register, value }; self.writes];
        list.push(Access::Read { register });
        list
    }

    /// The answer with which the boot goes on after one of the accesses.
    pub fn expected(self, access: Access) -> i64 {
        match access {
            Access::Read { .. } => i64::from(self.value),
            _ => 0,
        }
    }
}

/// Installs the policy of a lifecycle, given by its number. A broken state
/// answers -7, then fewer than 58 alerts -13; both leave the state as it is.
pub fn install(mut handler: Handler, lifecycle: u8) -> Installed {
    let (answer, register) = if !handler.valid() {
        (Refusal::BrokenState.answer(), 0)
    } else if handler.n < ALERTS as u64 {
        (Refusal::TooFewAlerts.answer(), 0)
    } else {
        // All wires are at (0,1), the receive pairs too, and the word is 0.
        boot(lifecycle, |access| {
            handler.tick(access, &Sample::at_rest()).answer
        })
    };
    Installed {
        handler,
        answer,
        register,
    }
}

/// Takes the steps up to the first that stops; gives answer and register. Each
/// call of `tick` is one tick with this access, and gives its answer.
pub fn boot(lifecycle: u8, mut tick: impl FnMut(Access) -> i64) -> (i64, u16) {
    for step in steps(lifecycle) {
        for access in step.accesses() {
            let answer = tick(access);
            if answer != step.expected(access) {
                return (answer, step.register);
            }
        }
    }
    (0, 0)
}

/// The accesses of a whole boot in their order.
pub fn accesses(lifecycle: u8) -> Vec<Access> {
    steps(lifecycle)
        .into_iter()
        .flat_map(Step::accesses)
        .collect()
}

/// The steps of a whole boot in their order.
pub fn steps(lifecycle: u8) -> Vec<Step> {
    let lifecycle = Lifecycle::numbered(lifecycle);
    let mut steps = Vec::new();
    for i in 0..ALERTS {
        let mark = lifecycle.mark(i);
        steps.push(shadowed(CLASS + i as u16, mark.class()));
        steps.push(shadowed(EN + i as u16, mark.en()));
    }
    for k in 0..CLASSES {
        let class = CLASS_REGWEN + 16 * k as u16;
        for (_, place, values) in SETTINGS {
            steps.push(shadowed(class + place, values[k]));
        }
        steps.push(shadowed(class + CTRL, lifecycle.ctrl(k)));
    }
    if lifecycle.locks() {
        for i in 0..ALERTS {
            if lifecycle.mark(i) == Mark::A {
                steps.push(lock(REGWEN + i as u16));
            }
        }
        steps.push(lock(CLASS_REGWEN));
    }
    steps
}

/// A register that takes two equal writes.
fn shadowed(register: u16, value: u32) -> Step {
    Step {
        register,
        value,
        writes: 2,
    }
}

/// A REGWEN that is locked.
fn lock(register: u16) -> Step {
    Step {
        register,
        value: 0,
        writes: 1,
    }
}
