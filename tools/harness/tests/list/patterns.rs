//! Wrong rules that differ from the right one in one place alone: one index, one edge of a width, two things in one tick, a rule
//! that reads or changes more than its sentence says.

use super::Slip;

/// Slips that examples of the rules let through.
pub const PATTERNS: &[Slip] = &[
    Slip {
        name: "phase 2 ignores a clear",
        file: "class.rs",
        right: "PHASE0)];
        if cleared {",
        wrong: "PHASE0)];
        if cleared && self.state != PHASE0 + 2 {",
    },
    Slip {
        name: "events not counted in phase 3",
        file: "class.rs",
        right: "self.accum_cnt = self.accum_cnt.saturating_add(1);",
        wrong: "if self.state != PHASE3 {
            self.accum_cnt = self.accum_cnt.saturating_add(1);
        }",
    },
    Slip {
        name: "CLR readable above class 0",
        file: "register.rs",
        right: "Register::IntrTest | Register::Class(ClassField::Clr, _)",
        wrong: "Register::IntrTest | Register::Class(ClassField::Clr, 0)",
    },
    Slip {
        name: "alert 63's equal wires not seen",
        file: "handler.rs",
        right: "equal |= p == n && alert.en == 1;",
        wrong: "equal |= p == n && alert.en == 1 && i != 63;",
    },
    Slip {
        name: "3 before 4 at CLR only",
        file: "access.rs",
        right: "if value > register.mask() {",
        wrong: "if matches!(register, Register::Class(ClassField::Clr, _)) && self.locked(register, value) {
            return Err(Refusal::Locked);
        }
        if value > register.mask() {",
    },
    Slip {
        name: "threshold compared in 15 bits",
        file: "class.rs",
        right: "let trigger = self.accum_cnt >= self.accum_thresh;",
        wrong: "let trigger = self.accum_cnt & 0x7FFF >= self.accum_thresh & 0x7FFF;",
    },
    Slip {
        name: "threshold compared in 8 bits",
        file: "class.rs",
        right: "let trigger = self.accum_cnt >= self.accum_thresh;",
        wrong: "let trigger = self.accum_cnt >= self.accum_thresh & 0xFF;",
    },
    Slip {
        name: "TIMEOUT_CYC 65536 never due",
        file: "class.rs",
        right: "interrupt && self.timeout_cyc > 0;",
        wrong: "interrupt && self.timeout_cyc & 0xFFFF > 0;",
    },
    Slip {
        name: "only the first alert's class has its event",
        file: "handler.rs",
        right: "                assigned[usize::from(alert.class)] = true;
            }
        }",
        wrong: "                if assigned == [false; CLASSES] {
                    assigned[usize::from(alert.class)] = true;
                }
            }
        }",
    },
    Slip {
        name: "equal wires of one alert stop the events of the others",
        file: "handler.rs",
        right: "        if equal {
            self.occur(",
        wrong: "        if equal {
            assigned = [false; CLASSES];
            self.occur(",
    },
    Slip {
        name: "an event below the threshold restarts a timeout",
        file: "class.rs",
        right: "        trigger
    }",
        wrong: "        if self.state == TIMEOUT && !trigger {
            self.esc_cnt = 0;
        }
        trigger
    }",
    },
    Slip {
        name: "a clear at a phase's last tick loses",
        file: "class.rs",
        right: "PHASE0)];
        if cleared {",
        wrong: "PHASE0)];
        if cleared && self.esc_cnt < length {",
    },
    Slip {
        name: "equal wires of one alert hold the others' receivers",
        file: "handler.rs",
        right: "if self.receivers[i].read(p, n) && alert.en == 1 {",
        wrong: "if !equal && self.receivers[i].read(p, n) && alert.en == 1 {",
    },
    Slip {
        name: "a local alert occurs only while its cause is 0",
        file: "handler.rs",
        right: "if local.en == 1 {
            local.cause = 1;",
        wrong: "if local.en == 1 && local.cause == 0 {
            local.cause = 1;",
    },
    Slip {
        name: "a locked alert has no event",
        file: "handler.rs",
        right: "if self.receivers[i].read(p, n) && alert.en == 1 {",
        wrong: "if self.receivers[i].read(p, n) && alert.en == 1 && alert.regwen == 1 {",
    },
    Slip {
        name: "no start while CLR_REGWEN is 0",
        file: "class.rs",
        right: "                if trigger {
                    self.start();",
        wrong: "                if trigger && self.clr_regwen == 1 {
                    self.start();",
    },
    Slip {
        name: "lines need EN",
        file: "class.rs",
        right: "if enabled && self.state == PHASE0 + map {",
        wrong: "if enabled && self.en() && self.state == PHASE0 + map {",
    },
    Slip {
        name: "Terminal reads EN",
        file: "class.rs",
        right: "            TERMINAL => {
                if cleared {",
        wrong: "            TERMINAL => {
                if cleared && self.enabled() {",
    },
    Slip {
        name: "clearing a CAUSE ends the handshake",
        file: "access.rs",
        right: "            Register::Alert(field, i) => write_source(&mut self.alerts[i], field, value),",
        wrong: "            Register::Alert(field, i) => {
                if field == SourceField::Cause && value == 1 {
                    self.receivers[i].place = crate::receiver::Place::Ready;
                }
                write_source(&mut self.alerts[i], field, value)
            }",
    },
    Slip {
        name: "entering Terminal clears ACCUM_CNT",
        file: "class.rs",
        right: "self.enter(TERMINAL, 0);",
        wrong: "self.enter(TERMINAL, 0);
            self.accum_cnt = 0;",
    },
    Slip {
        name: "a 1 written to a CAUSE that is 0 sets it",
        file: "access.rs",
        right: "SourceField::Cause => source.cause &= !value,",
        wrong: "SourceField::Cause => source.cause ^= value,",
    },
    Slip {
        name: "a trigger in Timeout must be due",
        file: "class.rs",
        right: "if trigger || (due && self.esc_cnt >= self.timeout_cyc) {",
        wrong: "if (trigger && self.timeout_cyc > 0) || (due && self.esc_cnt >= self.timeout_cyc) {",
    },
];
