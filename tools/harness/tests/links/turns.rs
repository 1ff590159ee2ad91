//! Ticks with a slip in the ping timer's turn, or in refusal 7 of open pings.

use crate::words::{and, but, live};
use handler::{Answer, Handler, Whose, WORDS};
use harness::calls::Tick;

/// The state with the pings of alerts closed that are not the turn's.
fn own_alerts(mut h: Handler) -> Handler {
    let mut own = [0; WORDS];
    if let Whose::Alert(i) = h.links.turn.whose() {
        own[i / 64] = u64::from(h.timer.is_on()) << (63 - i % 64);
    }
    let others = but(live(h.n.min(248)), own);
    h.links.receivers.pending = but(h.links.receivers.pending, others);
    h
}

/// The same of the lines.
fn own_lines(mut h: Handler) -> Handler {
    let own = match h.links.turn.whose() {
        Whose::Line(e) if h.timer.is_on() => 1 << e,
        _ => 0,
    };
    h.links.lines &= !15 | own;
    h
}

/// Wrong turns.
pub const TURNS: &[(&str, Tick)] = &[
    ("the age goes round after 65535", |h, access, sample| {
        let mut given = h.tick(access, sample);
        let stays = h.links.turn.count == u16::MAX && given.handler.links.turn == h.links.turn;
        if h.timer.is_on() && stays && given.answer != Answer(-7) {
            given.handler.links.turn.count = 0;
        }
        given
    }),
    ("bits above the lines' cleared", |h, access, sample| {
        let mut given = h.tick(access, sample);
        if given.answer != Answer(-7) {
            given.handler.links.lines &= 15;
        }
        given
    }),
    ("a timer that is off counts down", |h, access, sample| {
        let mut given = h.tick(access, sample);
        if given.answer != Answer(-7) && !given.handler.timer.is_on() {
            let count = &mut given.handler.links.turn.count;
            *count = count.saturating_sub(1);
        }
        given
    }),
    ("a refused access stops the timer", |h, access, sample| {
        let mut given = h.tick(access, sample);
        if given.answer.0 < 0 && given.answer != Answer(-7) {
            given.handler.links.turn = h.links.turn;
        }
        given
    }),
    (
        "a locked write keeps the timeout's stage",
        |h, access, sample| {
            let mut given = h.tick(access, sample);
            if given.answer == Answer(-3) {
                given.handler.stages.timeout = h.stages.timeout;
            }
            given
        },
    ),
    (
        "the word's top bits go to the alert",
        |h, access, mut sample| {
            sample.word ^= sample.word >> 24 << 16;
            h.tick(access, sample)
        },
    ),
];

/// Wrong refusals of open pings.
pub const OPEN: &[(&str, Tick)] = &[
    ("another alert's open ping accepted", |h, access, sample| {
        own_alerts(h).tick(access, sample)
    }),
    ("another line's open ping accepted", |h, access, sample| {
        own_lines(h).tick(access, sample)
    }),
    (
        "an open ping at N and above refused",
        |h, access, sample| {
            let mut given = h.tick(access, sample);
            let above = but(h.links.receivers.pending, live(h.n.min(248)));
            if above != [0; WORDS] {
                given.answer = Answer(-7);
            }
            given
        },
    ),
    ("bits above the lines' refused", |h, access, sample| {
        let mut given = h.tick(access, sample);
        if h.links.lines >> 4 != 0 {
            given.answer = Answer(-7);
        }
        given
    }),
    ("a turn's number over 7 refused", |h, access, sample| {
        let mut given = h.tick(access, sample);
        if h.timer.is_on() && h.links.turn.number > 7 {
            given.answer = Answer(-7);
        }
        given
    }),
    ("the turn's open ping refused", |h, access, sample| {
        let mut given = h.tick(access, sample);
        let alerts = and(h.links.receivers.pending, live(h.n.min(248)));
        if alerts != [0; WORDS] {
            given.answer = Answer(-7);
        }
        given
    }),
];
