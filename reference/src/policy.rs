//! The boot policy: document 002's tables, and what the request adds to them.

use Mark::{A, B, C, D, X};

/// What an alert is marked with in a lifecycle.
#[derive(Clone, Copy, Debug, PartialEq, Eq)]
pub enum Mark {
    /// Class 0, fatal.
    A,
    /// Class 1, near-fatal.
    B,
    /// Class 2, severe.
    C,
    /// Class 3, minor.
    D,
    /// Neither classified nor armed.
    X,
}

impl Mark {
    /// The CLASS of an alert so marked.
    pub fn class(self) -> u32 {
        match self {
            A | X => 0,
            B => 1,
            C => 2,
            D => 3,
        }
    }

    /// The EN of an alert so marked.
    pub fn en(self) -> u32 {
        u32::from(self != X)
    }
}

/// The lifecycles, in the order of the table's columns.
#[derive(Clone, Copy, Debug, PartialEq, Eq)]
pub enum Lifecycle {
    /// RAW/TEST
    RawTest,
    /// PROD
    Prod,
    /// PROD_END
    ProdEnd,
    /// DEV
    Dev,
    /// RMA
    Rma,
    /// SCRAP
    Scrap,
}

impl Lifecycle {
    /// The lifecycle with this number; one over 5 is taken as PROD_END.
    pub fn numbered(number: u8) -> Lifecycle {
        match number {
            0 => Lifecycle::RawTest,
            1 => Lifecycle::Prod,
            2 => Lifecycle::ProdEnd,
            3 => Lifecycle::Dev,
            4 => Lifecycle::Rma,
            5 => Lifecycle::Scrap,
            _ => Lifecycle::ProdEnd,
        }
    }

    /// What alert i is marked with.
    pub fn mark(self, i: usize) -> Mark {
        CLASSIFICATION[i].2[self as usize]
    }

    /// Whether classes A and B get EN.
    pub fn enables(self) -> bool {
        self.locks() || self == Lifecycle::Dev
    }

    /// Whether class A gets LOCK, and its REGWEN and those of the alerts marked
    /// A are locked.
    pub fn locks(self) -> bool {
        matches!(self, Lifecycle::Prod | Lifecycle::ProdEnd)
    }

    /// The CTRL of class k: 0x393C, EN at bit 0, LOCK at bit 1.
    pub fn ctrl(self, k: usize) -> u32 {
        let en = self.enables() && k <= 1;
        let lock = self.locks() && k == 0;
        0x393C | u32::from(en) | u32::from(lock) << 1
    }
}

/// Each class's settings, the same in every lifecycle: a name, the register's
/// place in the class, and its value in classes A, B, C, D.
#[rustfmt::skip]
pub const SETTINGS: [(&str, u16, [u32; 4]); 6] = [
    ("Accumulation Threshold",  5, [          0,           0, 0, 0]),
    ("Timeout Cycles",          6, [          0,           0, 0, 0]),
    ("Phase 0 Cycles",          7, [          0,           0, 0, 0]),
    ("Phase 1 Cycles",          8, [         10,          10, 0, 0]),
    ("Phase 2 Cycles",          9, [         10,          10, 0, 0]),
    ("Phase 3 Cycles",         10, [0xFFFF_FFFF, 0xFFFF_FFFF, 0, 0]),
];

/// Name and ID of each alert, and its marks in RAW/TEST, PROD, PROD_END, DEV,
/// RMA, SCRAP.
#[rustfmt::skip]
pub const CLASSIFICATION: [(&str, u16, [Mark; 6]); 58] = [
    ("Uart0FatalFault",               0, [X, C, C, X, X, X]),
    ("Uart1FatalFault",               1, [X, C, C, X, X, X]),
    ("Uart2FatalFault",               2, [X, C, C, X, X, X]),
    ("Uart3FatalFault",               3, [X, C, C, X, X, X]),
    ("GpioFatalFault",                4, [X, C, C, X, X, X]),
    ("SpiDeviceFatalFault",           5, [X, C, C, X, X, X]),
    ("SpiHost0FatalFault",            6, [X, C, C, D, X, X]),
    ("SpiHost1FatalFault",            7, [X, C, C, D, X, X]),
    ("I2c0FatalFault",                8, [X, C, C, X, X, X]),
    ("I2c1FatalFault",                9, [X, C, C, X, X, X]),
    ("I2c2FatalFault",               10, [X, C, C, X, X, X]),
    ("PattgenFatalFault",            11, [X, C, C, X, X, X]),
    ("RvTimerFatalFault",            12, [X, C, C, X, X, X]),
    ("UsbdevFatalFault",             13, [X, C, C, X, X, X]),
    ("OtpCtrlFatalMacroError",       14, [X, A, A, D, X, X]),
    ("OtpCtrlFatalCheckError",       15, [X, A, A, D, X, X]),
    ("OtpCtrlFatalBusIntegError",    16, [X, A, A, D, X, X]),
    ("LcCtrlFatalProgError",         17, [X, A, A, D, X, X]),
    ("LcCtrlFatalStateError",        18, [X, A, A, D, X, X]),
    ("LcCtrlFatalBusIntegError",     19, [X, A, A, D, X, X]),
    ("PwrmgrAonFatalFault",          20, [X, C, C, X, X, X]),
    ("RstmgrAonFatalFault",          21, [X, C, C, X, X, X]),
    ("ClkmgrAonRecovFault",          22, [X, C, C, X, X, X]),
    ("ClkmgrAonFatalFault",          23, [X, C, C, X, X, X]),
    ("SysrstCtrlAonFatalFault",      24, [X, C, C, X, X, X]),
    ("AdcCtrlAonFatalFault",         25, [X, C, C, X, X, X]),
    ("PwmAonFatalFault",             26, [X, C, C, X, X, X]),
    ("PinmuxAonFatalFault",          27, [X, C, C, X, X, X]),
    ("AonTimerAonFatalFault",        28, [X, C, C, X, X, X]),
    ("SensorCtrlRecovAlert",         29, [X, C, C, X, X, X]),
    ("SensorCtrlFatalAlert",         30, [X, C, C, X, X, X]),
    ("SramCtrlRetAonFatalIntgError", 31, [X, B, B, D, X, X]),
    ("FlashCtrlRecovErr",            32, [X, D, D, D, X, X]),
    ("FlashCtrlFatalErr",            33, [X, A, A, D, X, X]),
    ("RvDmFatalFault",               34, [X, C, C, X, X, X]),
    ("RvPlicFatalFault",             35, [X, C, C, X, X, X]),
    ("AesRecovCtrlUpdateErr",        36, [X, D, D, D, X, X]),
    ("AesFatalFault",                37, [X, A, A, D, X, X]),
    ("HmacFatalFault",               38, [X, A, A, D, X, X]),
    ("KmacFatalFault",               39, [X, A, A, D, X, X]),
    ("KeymgrFatalFaultErr",          40, [X, A, A, D, X, X]),
    ("KeymgrRecovOperationErr",      41, [X, D, D, D, X, X]),
    ("CsrngRecovAlert",              42, [X, D, D, D, X, X]),
    ("CsrngFatalAlert",              43, [X, A, A, D, X, X]),
    ("EntropySrcRecovAlert",         44, [X, D, D, D, X, X]),
    ("EntropySrcFatalAlert",         45, [X, A, A, D, X, X]),
    ("Edn0FatalAlert",               46, [X, A, A, D, X, X]),
    ("Edn0RecovAlert",               47, [X, D, D, D, X, X]),
    ("Edn1FatalAlert",               48, [X, A, A, D, X, X]),
    ("Edn1RecovAlert",               49, [X, D, D, D, X, X]),
    ("SramCtrlMainFatalError",       50, [X, A, A, D, X, X]),
    ("OtbnFatal",                    51, [X, A, A, D, X, X]),
    ("OtbnRecov",                    52, [X, D, D, D, X, X]),
    ("RomCtrlFatal",                 53, [X, A, A, D, X, X]),
    ("RvCoreIbexFatalSwErr",         54, [X, A, A, D, X, X]),
    ("RvCoreIbexRecovSwErr",         55, [X, D, D, D, X, X]),
    ("RvCoreIbexFatalHwErr",         56, [X, A, A, D, X, X]),
    ("RvCoreIbexRecovHwErr",         57, [X, D, D, D, X, X]),
];
