//! What may go wrong with shadow writes. That a locked write keeps its stage no word shows: `states.rs` has it.

use super::Slip;

/// Slips about stages.
pub const STAGES: &[Slip] = &[
    Slip {
        name: "a first write commits",
        file: "access.rs",
        right: "self.stage(register, value);
                Ok(false)",
        wrong: "self.stage(register, value);
                Ok(true)",
    },
    Slip {
        name: "a first write commits and leaves no stage",
        file: "access.rs",
        right: "self.stage(register, value);
                Ok(false)",
        wrong: "Ok(true)",
    },
    Slip {
        name: "a differing write staged",
        file: "access.rs",
        right: "Err(Refusal::StageDiffers)",
        wrong: "{
                    self.stage(register, value);
                    Err(Refusal::StageDiffers)
                }",
    },
    Slip {
        name: "a differing write keeps the stage",
        file: "access.rs",
        right: "Err(Refusal::StageDiffers)",
        wrong: "{
                    self.stage(register, staged);
                    Err(Refusal::StageDiffers)
                }",
    },
    Slip {
        name: "a differing write commits",
        file: "access.rs",
        right: "Err(Refusal::StageDiffers)",
        wrong: "{
                    self.store(register, value);
                    Err(Refusal::StageDiffers)
                }",
    },
    Slip {
        name: "a read keeps the stage",
        file: "access.rs",
        right: "self.drop_stage(register);
        Ok(match register {",
        wrong: "Ok(match register {",
    },
    Slip {
        name: "a read gives the staged value",
        file: "access.rs",
        right: "self.drop_stage(register);
        Ok(match register {",
        wrong: "if let Some(value) = self.staged(register) {
            self.drop_stage(register);
            return Ok(value);
        }
        Ok(match register {",
    },
    Slip {
        name: "refusal 4 drops the stage",
        file: "access.rs",
        right: "return Err(Refusal::OutsideField);",
        wrong: "self.drop_stage(register);
            return Err(Refusal::OutsideField);",
    },
    Slip {
        name: "12 before 3",
        file: "access.rs",
        right: "if self.locked(register, value) {",
        wrong: "if self.locked(register, value) && register.shadowed() {
            self.second(register, value)?;
        }
        if self.locked(register, value) {",
    },
    Slip {
        name: "12 without local 5",
        file: "handler.rs",
        right: "if answer == Refusal::StageDiffers.answer() {",
        wrong: "if false {",
    },
    Slip {
        name: "local 5 occurs while disabled",
        file: "handler.rs",
        right: "if local.en == 1 {
            local.cause = 1;",
        wrong: "if local.en == 1 || j == SHADOW_UPDATE {
            local.cause = 1;",
    },
    Slip {
        name: "local 5 counts for no class",
        file: "handler.rs",
        right: "self.occur(SHADOW_UPDATE, &mut assigned);",
        wrong: "self.occur(SHADOW_UPDATE, &mut [false; CLASSES]);",
    },
    Slip {
        name: "local 5 on a locked write that differs",
        file: "handler.rs",
        right: "if answer == Refusal::StageDiffers.answer() {",
        wrong:
            "if answer == Refusal::StageDiffers.answer() || answer == Refusal::Locked.answer() {",
    },
    Slip {
        name: "a lock commits the stage",
        file: "access.rs",
        right: "        self.store(register, value);
        match register {",
        wrong: "        self.store(register, value);
        if let (Register::Alert(SourceField::Regwen, i), 0) = (register, value) {
            let en = Register::Alert(SourceField::En, i);
            if let Some(staged) = self.staged(en) {
                self.store(en, staged);
            }
        }
        match register {",
    },
    Slip {
        name: "one stage for all lengths of a class",
        file: "stages.rs",
        right: "ClassField::PhaseCyc(p) => self.lengths[p] = stage,",
        wrong: "ClassField::PhaseCyc(_) => self.lengths = [stage; 4],",
    },
    Slip {
        name: "EN and CLASS share a stage",
        file: "stages.rs",
        right: "SourceField::Class => u64::from(self.class[at]),",
        wrong: "SourceField::Class => u64::from(self.class[at].max(self.en[at])),",
    },
    Slip {
        name: "a length of 4294967295 is not staged",
        file: "stages.rs",
        right: "stage.checked_sub(1).map(|value| value as u32)",
        wrong: "(stage as u32).checked_sub(1)",
    },
    Slip {
        name: "TIMEOUT_CYC is not shadowed",
        file: "register.rs",
        right: "                    | ClassField::TimeoutCyc
                    | ClassField::PhaseCyc(_)
            ),",
        wrong: "                    | ClassField::PhaseCyc(_)
            ),",
    },
    Slip {
        name: "a trigger reads a staged threshold",
        file: "handler.rs",
        right: "let trigger = class.accumulate(event, clear);",
        wrong: "let held = class.accum_thresh;
            let staged = self.stages.classes[k].thresh;
            class.accum_thresh = if staged == 0 { held } else { (staged - 1) as u16 };
            let trigger = class.accumulate(event, clear);
            class.accum_thresh = held;",
    },
];
