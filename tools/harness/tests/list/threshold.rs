//! What may go wrong with refusal 14. That it is given on a class that is locked already no trace shows, since none locks
//! such a class: `states.rs` has it. Nor does any word show its place before 3, as only a 0 to an open lock gets it.

use super::Slip;

/// Slips about the lock of a class that waits for 65,536 events.
pub const THRESHOLD: &[Slip] = &[
    Slip {
        name: "14 never given",
        file: "access.rs",
        right: "value == 0 && self.classes[k].silly(),",
        wrong: "false,",
    },
    Slip {
        name: "14 for a written 1",
        file: "access.rs",
        right: "value == 0 && self.classes[k].silly(),",
        wrong: "self.classes[k].silly(),",
    },
    Slip {
        name: "14 before 4, for any value",
        file: "access.rs",
        right: "if value > register.mask() {",
        wrong: "if self.locks_silly(register, if value > 1 { 0 } else { value }) {
            return Err(Refusal::SillyThreshold);
        }
        if value > register.mask() {",
    },
    Slip {
        name: "14 for 65534 too",
        file: "class.rs",
        right: "self.accum_thresh == u16::MAX",
        wrong: "self.accum_thresh >= u16::MAX - 1",
    },
    Slip {
        name: "14 while EN is 0",
        file: "class.rs",
        right: "self.en() && self.accum_thresh",
        wrong: "self.accum_thresh",
    },
    Slip {
        name: "14 needs a line",
        file: "class.rs",
        right: "self.en() && self.accum_thresh",
        wrong: "self.enabled() && self.accum_thresh",
    },
    Slip {
        name: "14 looks at a staged threshold",
        file: "access.rs",
        right: "value == 0 && self.classes[k].silly(),",
        wrong: "{
                let mut class = self.classes[k];
                let thresh = Register::Class(ClassField::AccumThresh, k);
                if let Some(staged) = self.stages.staged(thresh) {
                    class.accum_thresh = staged as u16;
                }
                value == 0 && class.silly()
            }",
    },
    Slip {
        name: "14 looks at a staged EN",
        file: "access.rs",
        right: "value == 0 && self.classes[k].silly(),",
        wrong: "{
                let mut class = self.classes[k];
                if let Some(staged) = self.stages.staged(Register::Class(ClassField::Ctrl, k)) {
                    class.ctrl |= staged as u16;
                }
                value == 0 && class.silly()
            }",
    },
    Slip {
        name: "14 for CLR_REGWEN",
        file: "access.rs",
        right: "Register::Class(ClassField::Regwen, k) => value",
        wrong: "Register::Class(ClassField::Regwen | ClassField::ClrRegwen, k) => value",
    },
    Slip {
        name: "14 for an alert's lock",
        file: "access.rs",
        right: "Register::Class(ClassField::Regwen, k) => value == 0 && self.classes[k].silly(),",
        wrong: "Register::Class(ClassField::Regwen, k) => value == 0 && self.classes[k].silly(),
            Register::Alert(SourceField::Regwen, i) => {
                value == 0 && self.classes[usize::from(self.alerts[i].class)].silly()
            }",
    },
    Slip {
        name: "14 by another class's registers",
        file: "access.rs",
        right: "self.classes[k].silly(),",
        wrong: "self.classes[(k + 1) % 4].silly(),",
    },
    Slip {
        name: "14 locks all the same",
        file: "access.rs",
        right: "return Err(Refusal::SillyThreshold);",
        wrong: "self.store(register, value);
            return Err(Refusal::SillyThreshold);",
    },
    Slip {
        name: "14 drops the stages of the class",
        file: "access.rs",
        right: "return Err(Refusal::SillyThreshold);",
        wrong: "if let Register::Class(_, k) = register {
                self.stages.classes[k] = Default::default();
            }
            return Err(Refusal::SillyThreshold);",
    },
    Slip {
        name: "local 5 occurs with 14",
        file: "handler.rs",
        right: "if answer == Refusal::StageDiffers.answer() {",
        wrong: "if answer == Refusal::StageDiffers.answer() || answer == Refusal::SillyThreshold.answer() {",
    },
];
