//! What a dump shows of a state (request (xiv)).

use crate::class::Class;
use crate::handler::{Handler, Source, CLASSES, LOCALS, MAX_ALERTS};
use crate::register::Register;

/// What a dump shows of a class.
#[derive(Clone, Copy, Debug, Default, PartialEq, Eq)]
pub struct ClassContent {
    /// STATE, 3 bits.
    pub state: u8,
    /// The class count, ESC_CNT.
    pub count: u32,
    /// The accumulator, ACCUM_CNT.
    pub accumulator: u16,
    /// Whether REGWEN is 0.
    pub locked: bool,
    /// Whether CLR_REGWEN is 0.
    pub clr_locked: bool,
}

/// What a dump shows of an alert or local alert.
#[derive(Clone, Copy, Debug, Default, PartialEq, Eq)]
pub struct SourceContent {
    /// Whether CAUSE is 1.
    pub cause: bool,
    /// Whether REGWEN is 0.
    pub locked: bool,
}

/// An open stage.
#[derive(Clone, Copy, Debug, Default, PartialEq, Eq)]
pub struct StageContent {
    /// The register number.
    pub register: u16,
    /// The staged value.
    pub value: u32,
}

/// All that a dump shows.
#[derive(Clone, Debug, PartialEq, Eq)]
pub struct Content {
    /// The number of alerts, N.
    pub n: u8,
    /// The classes.
    pub classes: [ClassContent; CLASSES],
    /// Whether the ping timer's REGWEN is 0.
    pub timer_locked: bool,
    /// The local alerts.
    pub locals: [SourceContent; LOCALS],
    /// The alerts; of those at N and above nothing is shown.
    pub alerts: [SourceContent; MAX_ALERTS],
    /// The open stages, register numbers rising.
    pub stages: Vec<StageContent>,
}

impl Content {
    /// The content that is all 0, as a refused reading gives it.
    pub fn nothing() -> Content {
        Content {
            n: 0,
            classes: [ClassContent::default(); CLASSES],
            timer_locked: false,
            locals: [SourceContent::default(); LOCALS],
            alerts: [SourceContent::default(); MAX_ALERTS],
            stages: Vec::new(),
        }
    }

    /// What the dump of a state shows. The state must be one that refusal 7
    /// accepts.
    pub fn of(handler: &Handler) -> Content {
        let mut content = Content::nothing();
        content.n = handler.n as u8;
        for (shown, class) in content.classes.iter_mut().zip(&handler.classes) {
            *shown = of_class(class);
        }
        content.timer_locked = handler.timer.regwen == 0;
        for (shown, local) in content.locals.iter_mut().zip(&handler.locals) {
            *shown = of_source(local);
        }
        let alerts = &handler.alerts[..handler.n as usize];
        for (shown, alert) in content.alerts.iter_mut().zip(alerts) {
            *shown = of_source(alert);
        }
        for (number, register) in shadowed(content.n) {
            if let Some(value) = handler.staged(register) {
                content.stages.push(StageContent {
                    register: number,
                    value,
                });
            }
        }
        content
    }
}

/// What is shown of a class.
fn of_class(class: &Class) -> ClassContent {
    ClassContent {
        state: class.state,
        count: class.esc_cnt,
        accumulator: class.accum_cnt,
        locked: class.regwen == 0,
        clr_locked: class.clr_regwen == 0,
    }
}

/// What is shown of an alert or local alert.
fn of_source(source: &Source) -> SourceContent {
    SourceContent {
        cause: source.cause == 1,
        locked: source.regwen == 0,
    }
}

/// The shadowed registers of a handler of `n` alerts, numbers rising.
pub(crate) fn shadowed(n: u8) -> Vec<(u16, Register)> {
    let (n, mut numbers) = (u16::from(n), vec![5]);
    // EN and CLASS of the local alerts, then of the alerts.
    numbers.extend((24..=30).chain(32..=38));
    numbers.extend((512..512 + n).chain(768..768 + n));
    for class in [1280, 1296, 1312, 1328] {
        // CTRL, and from ACCUM_THRESH to PHASE3_CYC.
        numbers.push(class + 1);
        numbers.extend(class + 5..=class + 10);
    }
    let registers = numbers.into_iter().filter_map(|number| {
        let register = Register::decode(number, n.into())?;
        Some((number, register))
    });
    registers.collect()
}

#[cfg(test)]
mod tests {
    use super::shadowed;
    use crate::register::Register;

    #[test]
    fn the_shadowed_registers_are_those_that_take_two_writes() {
        for n in 0..=248 {
            let all = (0..=u16::MAX).filter_map(|number| {
                let register = Register::decode(number, u64::from(n))?;
                register.shadowed().then_some((number, register))
            });
            assert_eq!(shadowed(n), all.collect::<Vec<_>>());
        }
    }
}
