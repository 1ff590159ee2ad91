//! One class: its registers, its accumulator and its escalation.

use crate::register::ClassField;

/// STATE of a class at rest.
pub const IDLE: u8 = 0;
/// STATE of a class whose interrupt timeout runs.
pub const TIMEOUT: u8 = 1;
/// STATE of a class whose four phases are over.
pub const TERMINAL: u8 = 3;
/// STATE of Phase 0; Phase p is `PHASE0 + p`.
pub const PHASE0: u8 = 4;
/// STATE of Phase 3, the last phase.
pub const PHASE3: u8 = 7;

/// The stored registers of one class. CLR holds no value.
#[derive(Clone, Copy, Debug, PartialEq, Eq)]
pub struct Class {
    /// REGWEN, 1 bit.
    pub regwen: u8,
    /// CTRL, 14 bits.
    pub ctrl: u16,
    /// CLR_REGWEN, 1 bit.
    pub clr_regwen: u8,
    /// ACCUM_CNT, 16 bits.
    pub accum_cnt: u16,
    /// ACCUM_THRESH, 16 bits.
    pub accum_thresh: u16,
    /// TIMEOUT_CYC, 32 bits.
    pub timeout_cyc: u32,
    /// PHASE0_CYC to PHASE3_CYC, 32 bits each.
    pub phase_cyc: [u32; 4],
    /// ESC_CNT, the class count, 32 bits.
    pub esc_cnt: u32,
    /// STATE, one of 0, 1, 3 and 4 to 7.
    pub state: u8,
}

impl Class {
    /// A class at reset.
    pub fn new() -> Class {
        Class {
            regwen: 1,
            ctrl: 0x393C,
            clr_regwen: 1,
            accum_cnt: 0,
            accum_thresh: 0,
            timeout_cyc: 0,
            phase_cyc: [0; 4],
            esc_cnt: 0,
            state: IDLE,
        }
    }

    /// Whether the stored values keep the rule of refusal 7.
    pub fn valid(&self) -> bool {
        if self.regwen > 1 || self.clr_regwen > 1 || self.ctrl > 0x3FFF {
            return false;
        }
        match self.state {
            IDLE | TERMINAL => self.esc_cnt == 0,
            TIMEOUT | PHASE0..=PHASE3 => self.esc_cnt != 0,
            // 2 names no state and 8 up is over the three bits.
            _ => false,
        }
    }

    /// What steps 3 and 4 read as EN: CTRL bit 0 is 1 and at least one of the
    /// line enables, CTRL bits 2 to 5, is 1.
    pub fn enabled(&self) -> bool {
        let lines = (self.ctrl >> 2) & 0xF;
        self.en() && lines != 0
    }

    /// CTRL bit 0.
    pub fn en(&self) -> bool {
        self.ctrl & 1 == 1
    }

    /// Whether the class may not be locked as it stands: EN is 1, whatever the
    /// lines, it waits for 65,536 events, and it is not locked yet.
    pub fn silly(&self) -> bool {
        self.en() && self.accum_thresh == u16::MAX && self.regwen == 1
    }

    /// CTRL bit 1.
    pub fn lock(&self) -> bool {
        (self.ctrl >> 1) & 1 == 1
    }

    /// Step 3 for a class: counts, and says whether there is a trigger.
    pub fn accumulate(&mut self, event: bool, cleared: bool) -> bool {
        if cleared {
            self.accum_cnt = 0;
            return false;
        }
        if !event {
            return false;
        }
        // The threshold is compared before counting.
        let trigger = self.accum_cnt >= self.accum_thresh;
        self.accum_cnt = self.accum_cnt.saturating_add(1);
        trigger
    }

    /// Step 4 for a class: moves it on by one tick.
    pub fn advance(&mut self, trigger: bool, interrupt: bool, cleared: bool) {
        let due = self.enabled() && interrupt && self.timeout_cyc > 0;
        match self.state {
            IDLE => {
                if trigger {
                    self.start();
                } else if due {
                    self.enter(TIMEOUT, 1);
                }
            }
            TIMEOUT => {
                // A clear does not stop a timeout, so it is not read here.
                if trigger || (due && self.esc_cnt >= self.timeout_cyc) {
                    self.start();
                } else if due {
                    self.esc_cnt += 1;
                } else {
                    self.enter(IDLE, 0);
                }
            }
            TERMINAL => {
                if cleared {
                    self.enter(IDLE, 0);
                }
            }
            _ => self.advance_phase(cleared),
        }
    }

    /// Step 4 in a phase. Neither EN nor a line enable is read.
    fn advance_phase(&mut self, cleared: bool) {
        let length = self.phase_cyc[usize::from(self.state - PHASE0)];
        if cleared {
            self.enter(IDLE, 0);
        } else if self.esc_cnt < length {
            self.esc_cnt += 1;
        } else if self.state == PHASE3 {
            self.enter(TERMINAL, 0);
        } else {
            self.enter(self.state + 1, 1);
        }
    }

    /// Starts the escalation; LOCK makes it impossible to clear.
    fn start(&mut self) {
        self.enter(PHASE0, 1);
        if self.lock() {
            self.clr_regwen = 0;
        }
    }

    /// Sets state and count together, so that they always fit.
    fn enter(&mut self, state: u8, count: u32) {
        self.state = state;
        self.esc_cnt = count;
    }

    /// The lines that the class drives, line 0 lowest.
    pub fn lines(&self) -> u8 {
        let mut lines = 0;
        for e in 0..4 {
            let enabled = (self.ctrl >> (2 + e)) & 1 == 1;
            let map = ((self.ctrl >> (6 + 2 * e)) & 3) as u8;
            if enabled && self.state == PHASE0 + map {
                lines |= 1 << e;
            }
        }
        lines
    }

    /// The value of a register; CLR holds none and gives 0.
    pub fn read(&self, field: ClassField) -> u32 {
        match field {
            ClassField::Regwen => u32::from(self.regwen),
            ClassField::Ctrl => u32::from(self.ctrl),
            ClassField::ClrRegwen => u32::from(self.clr_regwen),
            ClassField::Clr => 0,
            ClassField::AccumCnt => u32::from(self.accum_cnt),
            ClassField::AccumThresh => u32::from(self.accum_thresh),
            ClassField::TimeoutCyc => self.timeout_cyc,
            ClassField::PhaseCyc(p) => self.phase_cyc[p],
            ClassField::EscCnt => self.esc_cnt,
            ClassField::State => u32::from(self.state),
        }
    }

    /// Whether writing `value` to the register meets a lock.
    pub fn locked(&self, field: ClassField, value: u32) -> bool {
        match field {
            // A 0 on a locked enable is accepted again.
            ClassField::Regwen => self.regwen == 0 && value != 0,
            ClassField::ClrRegwen => self.clr_regwen == 0 && value != 0,
            // A locked CLR refuses a 0 too: the register is locked.
            ClassField::Clr => self.clr_regwen == 0,
            ClassField::Ctrl
            | ClassField::AccumThresh
            | ClassField::TimeoutCyc
            | ClassField::PhaseCyc(_) => self.regwen == 0,
            ClassField::AccumCnt | ClassField::EscCnt | ClassField::State => false,
        }
    }

    /// Stores a value that was checked to be accepted.
    pub fn write(&mut self, field: ClassField, value: u32) {
        match field {
            ClassField::Regwen => self.regwen = value as u8,
            ClassField::Ctrl => self.ctrl = value as u16,
            ClassField::ClrRegwen => self.clr_regwen = value as u8,
            ClassField::AccumThresh => self.accum_thresh = value as u16,
            ClassField::TimeoutCyc => self.timeout_cyc = value,
            ClassField::PhaseCyc(p) => self.phase_cyc[p] = value,
            // CLR holds no value; the others are read only and never get here.
            ClassField::Clr | ClassField::AccumCnt | ClassField::EscCnt | ClassField::State => {}
        }
    }
}

impl Default for Class {
    fn default() -> Self {
        Class::new()
    }
}
