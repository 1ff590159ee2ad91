//! The registers of a class.

/// A register of a class's block; as a number it is its offset in the block.
#[derive(Clone, Copy, Debug, PartialEq, Eq)]
pub enum Setting {
    /// REGWEN, which guards CTRL, ACCUM_THRESH, TIMEOUT_CYC and the phase lengths.
    Regwen,
    /// CTRL.
    Ctrl,
    /// CLR_REGWEN, which guards CLR.
    ClrRegwen,
    /// CLR, write only; it holds no value.
    Clr,
    /// ACCUM_CNT, read only.
    AccumCnt,
    /// ACCUM_THRESH.
    AccumThresh,
    /// TIMEOUT_CYC.
    TimeoutCyc,
    /// PHASE0_CYC.
    Phase0Cyc,
    /// PHASE1_CYC.
    Phase1Cyc,
    /// PHASE2_CYC.
    Phase2Cyc,
    /// PHASE3_CYC.
    Phase3Cyc,
    /// ESC_CNT, read only.
    EscCnt,
    /// STATE, read only.
    State,
}

use Setting::*;

impl Setting {
    /// All, by their offsets.
    pub const ALL: [Setting; 13] = [
        Regwen,
        Ctrl,
        ClrRegwen,
        Clr,
        AccumCnt,
        AccumThresh,
        TimeoutCyc,
        Phase0Cyc,
        Phase1Cyc,
        Phase2Cyc,
        Phase3Cyc,
        EscCnt,
        State,
    ];

    /// Those that can be read: all but CLR.
    pub const READABLE: [Setting; 12] = [
        Regwen,
        Ctrl,
        ClrRegwen,
        AccumCnt,
        AccumThresh,
        TimeoutCyc,
        Phase0Cyc,
        Phase1Cyc,
        Phase2Cyc,
        Phase3Cyc,
        EscCnt,
        State,
    ];

    /// Those that take two equal writes: CTRL, ACCUM_THRESH, TIMEOUT_CYC and the phase lengths.
    pub const SHADOWED: [Setting; 7] = [
        Ctrl,
        AccumThresh,
        TimeoutCyc,
        Phase0Cyc,
        Phase1Cyc,
        Phase2Cyc,
        Phase3Cyc,
    ];

    /// The phase lengths, phase 0 first.
    pub const PHASES: [Setting; 4] = [Phase0Cyc, Phase1Cyc, Phase2Cyc, Phase3Cyc];

    /// The name after that of the class.
    pub fn name(self) -> &'static str {
        match self {
            Regwen => "REGWEN",
            Ctrl => "CTRL",
            ClrRegwen => "CLR_REGWEN",
            Clr => "CLR",
            AccumCnt => "ACCUM_CNT",
            AccumThresh => "ACCUM_THRESH",
            TimeoutCyc => "TIMEOUT_CYC",
            Phase0Cyc => "PHASE0_CYC",
            Phase1Cyc => "PHASE1_CYC",
            Phase2Cyc => "PHASE2_CYC",
            Phase3Cyc => "PHASE3_CYC",
            EscCnt => "ESC_CNT",
            State => "STATE",
        }
    }

    /// Does it take two equal writes?
    pub fn is_shadowed(self) -> bool {
        Setting::SHADOWED.contains(&self)
    }

    /// The bits of the register.
    pub fn bits(self) -> u32 {
        match self {
            Regwen | ClrRegwen | Clr => 1,
            State => 3,
            Ctrl => 14,
            AccumCnt | AccumThresh => 16,
            TimeoutCyc | Phase0Cyc | Phase1Cyc | Phase2Cyc | Phase3Cyc | EscCnt => 32,
        }
    }
}
