//! The ping timer: its registers, and the turn it is at.

/// A register of the ping timer.
#[derive(Clone, Copy, Debug, PartialEq, Eq)]
pub enum TimerField {
    /// A 0 locks the timeout and the enable.
    Regwen,
    /// The ticks that a ping may wait for its answer, 0 for no end; shadowed.
    Timeout,
    /// A 1 switches the timer on; nothing switches it off.
    Enable,
}

/// Whose ping a turn is.
#[derive(Clone, Copy, Debug, PartialEq, Eq)]
pub enum Turn {
    /// This alert's; the number is as drawn, so there may be no such alert.
    Alert(usize),
    /// This escalation line's, 0 to 3.
    Line(usize),
}

/// The state of the ping timer. An alert's open ping is in its receiver.
#[derive(Clone, Copy, Debug, PartialEq, Eq)]
pub struct Timer {
    /// REGWEN, register 4, 1 bit.
    pub regwen: u8,
    /// The enable, register 6, 1 bit.
    pub enable: u8,
    /// The timeout, register 5, 16 bits.
    pub timeout: u16,
    /// The timeout's stage: 0 for none, else the staged value plus 1.
    pub stage: u32,
    /// The turn: even an alert's, odd that of line number / 2 % 4.
    pub number: u8,
    /// The alert drawn.
    pub alert: u8,
    /// While the turn's ping is not open: the ticks to the ping, minus 1.
    /// While it is open: the ticks since it opened, staying at 65,535.
    pub count: u16,
    /// Bit e: line e's ping is open. Bits 4 to 7 are never read or changed.
    pub lines: u8,
    /// While a line's ping is open: whether one of its answers was not right, or
    /// not checked, so that the receive pairs can no longer answer it.
    pub wrong: bool,
}

impl Timer {
    /// The timer at reset.
    pub fn new() -> Timer {
        Timer {
            regwen: 1,
            enable: 0,
            timeout: 0,
            stage: 0,
            number: 0,
            alert: 0,
            count: 0,
            lines: 0,
            wrong: false,
        }
    }

    /// Whether the timer is on.
    pub fn on(&self) -> bool {
        self.enable == 1
    }

    /// Whose ping the turn is; it means something only while the timer is on.
    pub fn turn(&self) -> Turn {
        if self.number % 2 == 0 {
            Turn::Alert(usize::from(self.alert))
        } else {
            Turn::Line(usize::from(self.number / 2 % 4))
        }
    }

    /// Whether line e's ping is open.
    pub fn line_open(&self, e: usize) -> bool {
        (self.lines >> e) & 1 == 1
    }

    /// Whether the timer's part of the state keeps the rule of refusal 7. An
    /// open ping of a line must be the turn's; the handler sees to the alerts.
    pub fn valid(&self) -> bool {
        if self.regwen > 1 || self.enable > 1 || self.stage > 0x1_0000 {
            return false;
        }
        (0..4).all(|e| !self.line_open(e) || self.pings(Turn::Line(e)))
    }

    /// Whether a ping may be open there: the timer is on, and the turn is its.
    pub fn pings(&self, turn: Turn) -> bool {
        self.on() && self.turn() == turn
    }

    /// Sets the first turn, an alert's.
    pub(crate) fn start(&mut self, word: u32) {
        self.number = 0;
        self.draw(word);
    }

    /// Sets the next turn. The number goes round after 255: that is line 3's
    /// turn, and 0 an alert's before line 0's.
    pub(crate) fn next_turn(&mut self, word: u32) {
        self.number = self.number.wrapping_add(1);
        self.draw(word);
    }

    /// Takes from the word of a tick what the turn that it sets needs. A line
    /// is not drawn, so the last drawn alert stays while it has its turn.
    fn draw(&mut self, word: u32) {
        self.count = word as u16;
        if self.number % 2 == 0 {
            self.alert = (word >> 16) as u8;
        }
    }

    /// The value of a register.
    pub fn read(&self, field: TimerField) -> u32 {
        match field {
            TimerField::Regwen => u32::from(self.regwen),
            TimerField::Timeout => u32::from(self.timeout),
            TimerField::Enable => u32::from(self.enable),
        }
    }

    /// Whether writing `value` to the register meets a lock.
    pub fn locked(&self, field: TimerField, value: u32) -> bool {
        match field {
            // A 0 on a locked one is accepted again.
            TimerField::Regwen => self.regwen == 0 && value != 0,
            TimerField::Timeout | TimerField::Enable => self.regwen == 0,
        }
    }

    /// Stores a value that was checked to be accepted.
    pub fn write(&mut self, field: TimerField, value: u32) {
        match field {
            TimerField::Regwen => self.regwen = value as u8,
            TimerField::Timeout => self.timeout = value as u16,
            // A written 0 does nothing.
            TimerField::Enable => self.enable |= value as u8,
        }
    }

    /// The staged value of a register, if there is one.
    pub fn staged(&self, field: TimerField) -> Option<u32> {
        match field {
            TimerField::Timeout => self.stage.checked_sub(1),
            TimerField::Regwen | TimerField::Enable => None,
        }
    }

    /// Takes in the stage of a register; only the timeout has one.
    pub(crate) fn set_stage(&mut self, field: TimerField, stage: u32) {
        if field == TimerField::Timeout {
            self.stage = stage;
        }
    }
}

impl Default for Timer {
    fn default() -> Self {
        Timer::new()
    }
}
