//! The ping timer on both sides.

use handler::{Handler, Links, Stages, Timer, Turn, Whose};

/// What the library keeps in more bits than the reference: a number that has
/// no room there is over its register's bits on both sides.
fn narrow(kept: u16) -> u8 {
    u8::try_from(kept).unwrap_or(u8::MAX)
}

/// The bits of the lines that the reference keeps.
const LINES: u32 = 0xFF;

/// The reference's timer. Its timeout has no bits over its register's; those
/// are tried from C (`tests/boundary-states.c`).
pub fn reference_timer(timer: &Timer, links: &Links, stages: &Stages) -> reference::Timer {
    let Turn {
        number,
        alert,
        count,
    } = links.turn;
    reference::Timer {
        regwen: narrow(timer.regwen),
        enable: narrow(timer.enable),
        timeout: timer.timeout as u16,
        stage: u32::try_from(stages.timeout).unwrap_or(u32::MAX),
        number,
        alert,
        count,
        lines: (links.lines & LINES) as u8,
        // It says something of an open ping of a line alone.
        wrong: line_open(links) && links.right & 1 == 0,
    }
}

/// Is the ping of the turn's line open?
fn line_open(links: &Links) -> bool {
    match links.turn.whose() {
        Whose::Line(e) => links.lines >> e & 1 == 1,
        Whose::Alert(_) => false,
    }
}

/// The library's word on the answers to the open ping of a line.
pub fn handler_right(timer: &reference::Timer) -> u32 {
    let open = match timer.turn() {
        reference::timer::Turn::Line(e) => timer.line_open(e),
        reference::timer::Turn::Alert(_) => false,
    };
    u32::from(open && !timer.wrong)
}

/// The library's registers of it.
pub fn handler_timer(timer: &reference::Timer) -> Timer {
    Timer {
        timeout: timer.timeout.into(),
        regwen: timer.regwen.into(),
        enable: timer.enable.into(),
    }
}

/// The library's turn.
pub fn handler_turn(timer: &reference::Timer) -> Turn {
    Turn {
        number: timer.number,
        alert: timer.alert,
        count: timer.count,
    }
}

/// The lines with the bits of other ones that the reference does not keep.
pub fn with_spare_lines(lines: u32, other: u32) -> u32 {
    lines & LINES | other & !LINES
}

/// The state without what no rule ever reads, where the two sides may keep
/// other numbers: of a turn's number its parity and its line alone count, in a
/// line's turn nobody looks at the alert, and the answers to a line's ping were
/// right or not only while it is open.
pub fn told_apart(mut state: Handler) -> Handler {
    if !(state.timer.is_on() && line_open(&state.links)) {
        state.links.right = 0;
    }
    let turn = &mut state.links.turn;
    if state.timer.is_on() {
        turn.number %= 8;
        if let Whose::Line(_) = turn.whose() {
            turn.alert = 0;
        }
    }
    state
}
