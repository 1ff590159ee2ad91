//! The ping timer: its registers, and the turn it is at.

/// The ping timer's registers.
#[repr(C)]
#[derive(Clone, Copy, Debug, PartialEq, Eq)]
pub struct Timer {
    /// PING_TIMEOUT_CYC
    pub timeout: u32,
    /// PING_TIMER_REGWEN
    pub regwen: u16,
    /// PING_TIMER_EN
    pub enable: u16,
}

impl Timer {
    /// Off, not locked, the timeout 0.
    pub const NEW: Timer = Timer {
        timeout: 0,
        regwen: 1,
        enable: 0,
    };

    /// Is the timer on?
    pub fn is_on(&self) -> bool {
        self.enable == 1
    }
}

/// The timer's turn. Any bits are one, and before the timer is on they say nothing.
#[repr(C)]
#[derive(Clone, Copy, Debug, PartialEq, Eq)]
pub struct Turn {
    /// Even: an alert's turn; odd: that of line number / 2 % 4.
    pub number: u8,
    /// The alert drawn; a line's turn does not look at it.
    pub alert: u8,
    /// While the turn's ping is not open the ticks to it, less one; while it is the ticks since it opened, staying at 65,535.
    pub count: u16,
}

/// Whose ping a turn is.
#[derive(Clone, Copy, Debug, PartialEq, Eq)]
pub enum Whose {
    /// This alert's, as drawn: there may be no such alert.
    Alert(usize),
    /// This line's, 0 to 3.
    Line(usize),
}

impl Turn {
    /// That of a new handler.
    pub const NEW: Turn = Turn {
        number: 0,
        alert: 0,
        count: 0,
    };

    /// Whose ping it is.
    pub fn whose(&self) -> Whose {
        match self.number % 2 {
            0 => Whose::Alert(self.alert.into()),
            _ => Whose::Line(usize::from(self.number / 2 % 4)),
        }
    }
}

#[test]
fn turns_alternate_and_lines_go_round() {
    let whose = |number| {
        let turn = Turn {
            number,
            alert: 9,
            count: 0,
        };
        turn.whose()
    };
    for number in 0..=255 {
        let wanted = match number % 8 {
            1 => Whose::Line(0),
            3 => Whose::Line(1),
            5 => Whose::Line(2),
            7 => Whose::Line(3),
            _ => Whose::Alert(9),
        };
        assert_eq!(whose(number), wanted, "{number}");
    }
}

#[test]
fn fields_of_the_timer_stand_where_the_header_has_them() {
    use crate::layout::offset_of;
    use std::mem::size_of;
    assert!(size_of::<Timer>() == 8);
    assert!(offset_of!(Timer, timeout) == 0);
    assert!(offset_of!(Timer, regwen) == 4);
    assert!(offset_of!(Timer, enable) == 6);
    assert!(size_of::<Turn>() == 4);
    assert!(offset_of!(Turn, number) == 0);
    assert!(offset_of!(Turn, alert) == 1);
    assert!(offset_of!(Turn, count) == 2);
}
