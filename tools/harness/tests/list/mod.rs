//! The slips: a piece of the reference's text and what replaces it.

mod handshake;
mod lines;
mod patterns;
mod pings;
mod stages;
mod threshold;

use crate::copied::Slip;

/// Every slip; the default set must find each of them.
pub fn slips() -> impl Iterator<Item = &'static Slip> {
    let later = [
        stages::STAGES,
        threshold::THRESHOLD,
        patterns::PATTERNS,
        handshake::HANDSHAKE,
        pings::TURNS,
        pings::DRAWN,
        pings::ANSWERS,
        pings::RECORDS,
        lines::SENDERS,
        lines::LINE_PINGS,
        lines::PAIRS,
    ];
    RULES.iter().chain(later.into_iter().flatten())
}

/// The first ten are those of the table in landing note 04; the others are slips of the same sort.
const RULES: &[Slip] = &[
    Slip {
        name: "each alert counted",
        file: "handler.rs",
        right: "assigned[usize::from(alert.class)] = true;",
        wrong: "let class = &mut self.classes[usize::from(alert.class)];
                if assigned[usize::from(alert.class)] && class.enabled() {
                    class.accum_cnt = class.accum_cnt.saturating_add(1);
                }
                assigned[usize::from(alert.class)] = true;",
    },
    Slip {
        name: "zero phase skipped",
        file: "class.rs",
        right: "self.enter(self.state + 1, 1);",
        wrong: "let next = self.state + 1;
                self.enter(next, 1);
                if self.phase_cyc[usize::from(next - PHASE0)] == 0 {
                    self.advance_phase(false);
                }",
    },
    Slip {
        name: "threshold compared after counting",
        file: "class.rs",
        right: "let trigger = self.accum_cnt >= self.accum_thresh;
        self.accum_cnt = self.accum_cnt.saturating_add(1);",
        wrong: "self.accum_cnt = self.accum_cnt.saturating_add(1);
        let trigger = self.accum_cnt >= self.accum_thresh;",
    },
    Slip {
        name: "clear undoes the start of the tick before under LOCK",
        file: "class.rs",
        right: "ClassField::Clr => self.clr_regwen == 0,",
        wrong: "ClassField::Clr => {
                self.clr_regwen == 0 && !(self.state == PHASE0 && self.esc_cnt == 1)
            }",
    },
    Slip {
        name: "samples dropped on a refusal",
        file: "handler.rs",
        right: "let mut assigned = self.sample(&sample.pos, &sample.neg);",
        wrong: "let mut assigned = if answer < 0 {
            [false; CLASSES]
        } else {
            self.sample(&sample.pos, &sample.neg)
        };",
    },
    Slip {
        name: "refusal given as a value",
        file: "answer.rs",
        right: "        0
    } else {
        answer as u64
    }",
        wrong: "        answer.unsigned_abs()
    } else {
        answer as u64
    }",
    },
    Slip {
        name: "(0,0) is read as (0,1)",
        file: "receiver.rs",
        right: "        if pos == neg {
            return false;
        }",
        wrong: "        let neg = neg || !pos;
        if pos == neg {
            return false;
        }",
    },
    Slip {
        name: "accumulator stays at 65534",
        file: "class.rs",
        right: "self.accum_cnt.saturating_add(1);",
        wrong: "(self.accum_cnt + 1).min(65534);",
    },
    Slip {
        name: "a local alert needs its class's EN",
        file: "handler.rs",
        right: "if local.en == 1 {
            local.cause = 1;",
        wrong: "if local.en == 1 && self.classes[usize::from(local.class)].enabled() {
            local.cause = 1;",
    },
    Slip {
        name: "line maps permuted",
        file: "class.rs",
        right: "(6 + 2 * e)",
        wrong: "(12 - 2 * e)",
    },
    Slip {
        name: "refusal 3 before 4",
        file: "access.rs",
        right: "if value > register.mask() {",
        wrong: "if value > register.mask() && self.locked(register, value) {
            return Err(Refusal::Locked);
        }
        if value > register.mask() {",
    },
    Slip {
        name: "a 0 to a locked CLR accepted",
        file: "class.rs",
        right: "ClassField::Clr => self.clr_regwen == 0,",
        wrong: "ClassField::Clr => self.clr_regwen == 0 && value != 0,",
    },
    Slip {
        name: "a clear stops a timeout",
        file: "class.rs",
        right: "if trigger || (due && self.esc_cnt >= self.timeout_cyc) {",
        wrong: "if cleared {
                    self.enter(IDLE, 0);
                } else if trigger || (due && self.esc_cnt >= self.timeout_cyc) {",
    },
    Slip {
        name: "a timeout needs one tick more",
        file: "class.rs",
        right: "self.esc_cnt >= self.timeout_cyc",
        wrong: "self.esc_cnt > self.timeout_cyc",
    },
    Slip {
        name: "phase length compared for equality",
        file: "class.rs",
        right: "} else if self.esc_cnt < length {",
        wrong: "} else if length > 0 && self.esc_cnt != length && self.esc_cnt < u32::MAX {",
    },
    Slip {
        name: "EN read in a phase",
        file: "class.rs",
        right: "        if cleared {
            self.enter(IDLE, 0);
        } else if self.esc_cnt < length {",
        wrong: "        if cleared {
            self.enter(IDLE, 0);
        } else if !self.enabled() {
        } else if self.esc_cnt < length {",
    },
    Slip {
        name: "no counting outside Idle",
        file: "class.rs",
        right: "self.accum_cnt = self.accum_cnt.saturating_add(1);",
        wrong: "if self.state == IDLE {
            self.accum_cnt = self.accum_cnt.saturating_add(1);
        }",
    },
    Slip {
        name: "a cleared tick's event counted",
        file: "class.rs",
        right: "self.accum_cnt = 0;
            return false;",
        wrong: "self.accum_cnt = u16::from(event);
            return false;",
    },
    Slip {
        name: "a cleared tick's event sets no interrupt",
        file: "handler.rs",
        right: "if event {
                self.intr_state |= bit;",
        wrong: "if event && !clear {
                self.intr_state |= bit;",
    },
    Slip {
        name: "a disabled alert's rise is not taken",
        file: "handler.rs",
        right: "            if self.receivers[i].read(p, n) && alert.en == 1 {",
        wrong: "            let before = self.receivers[i].place;
            let risen = self.receivers[i].read(p, n);
            if risen && alert.en == 0 {
                self.receivers[i].place = before;
            }
            if risen && alert.en == 1 {",
    },
    Slip {
        name: "equal wires of a disabled alert occur",
        file: "handler.rs",
        right: "equal |= p == n && alert.en == 1;",
        wrong: "equal |= p == n;",
    },
    Slip {
        name: "samples at N and above count",
        file: "handler.rs",
        right: "for i in 0..self.n as usize {
            let p",
        wrong: "for i in self.n as usize..248 {
            equal |= wire(pos, i) == wire(neg, i);
        }
        for i in 0..self.n as usize {
            let p",
    },
    Slip {
        name: "a malformed record read as its access",
        file: "trace.rs",
        right: "if zeros != 0 {",
        wrong: "if zeros > 1 {",
    },
    Slip {
        name: "the register after N exists",
        file: "register.rs",
        right: "if (i as u64) < n {",
        wrong: "if (i as u64) <= n {",
    },
    Slip {
        name: "access after the samples",
        file: "handler.rs",
        right: "let (answer, cleared) = self.access(access);
        let mut standing = self.open_due(on, sample);
        let pulse = self.pulse(standing);
        let mut assigned = self.sample(&sample.pos, &sample.neg);",
        wrong: "let mut standing = self.open_due(on, sample);
        let pulse = self.pulse(standing);
        let mut assigned = self.sample(&sample.pos, &sample.neg);
        let (answer, cleared) = self.access(access);",
    },
    Slip {
        name: "phase length cut to 16 bits",
        file: "class.rs",
        right: "} else if self.esc_cnt < length {",
        wrong: "} else if self.esc_cnt < length & 0xFFFF {",
    },
    Slip {
        name: "a class with no lines is on",
        file: "class.rs",
        right: "self.en() && lines != 0",
        wrong: "self.en() && lines < 16",
    },
    Slip {
        name: "line 3 alone does not count",
        file: "class.rs",
        right: "let lines = (self.ctrl >> 2) & 0xF;",
        wrong: "let lines = (self.ctrl >> 2) & 0x7;",
    },
    Slip {
        name: "a phase stops without lines",
        file: "class.rs",
        right: "PHASE0)];
        if cleared {",
        wrong: "PHASE0)];
        if cleared || (self.ctrl >> 2) & 0xF == 0 {",
    },
    Slip {
        name: "an old number reaches a register that did not exist then",
        file: "carried.rs",
        right: "_ => UNASSIGNED,",
        wrong: "_ => number,",
    },
    Slip {
        name: "an old number is not carried",
        file: "trace.rs",
        right: "Edition::First => carried(number),",
        wrong: "Edition::First => number,",
    },
    Slip {
        name: "N = 65 accepted in an old input",
        file: "reference-replay.rs",
        right: "if answer != 0 || n > edition.alerts() as u64 {",
        wrong: "if answer != 0 || n > 65 {",
    },
    Slip {
        name: "255 without N accepted",
        file: "reference-replay.rs",
        right: "n.unwrap_or(0)",
        wrong: "n.unwrap_or(1)",
    },
    Slip {
        name: "a new record with 18 zero bits",
        file: "trace.rs",
        right: "let zeros = head & ((1 << edition.zero_bits()) - 1);",
        wrong: "let zeros = head & ((1 << edition.zero_bits().min(18)) - 1);",
    },
    Slip {
        name: "a new record's register cut to ten bits",
        file: "trace.rs",
        right: "& ((1 << edition.register_bits()) - 1);",
        wrong: "& 0x3FF;",
    },
    Slip {
        name: "the wires of alert 64 in the word before",
        file: "wires.rs",
        right: "wires[i / 64] >>",
        wrong: "wires[i.saturating_sub(1) / 64] >>",
    },
    Slip {
        name: "alert 247 lost",
        file: "handler.rs",
        right: "for i in 0..self.n as usize {
            let p",
        wrong: "for i in 0..self.n.min(247) as usize {
            let p",
    },
    Slip {
        name: "the last alert block one short",
        file: "register.rs",
        right: "1024..=1271",
        wrong: "1024..=1270",
    },
    Slip {
        name: "the last entry of a new handler is enabled",
        file: "handler.rs",
        right: "alerts: [Source::new(); MAX_ALERTS],",
        wrong:
            "alerts: std::array::from_fn(|i| Source { en: u8::from(i == 247), ..Source::new() }),",
    },
];
