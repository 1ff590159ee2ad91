//! Ticks with a slip in the lines' senders, in what they check, or in the pings of lines.

use handler::{Answer, Handler, LinePairs, Whose};
use harness::calls::Tick;

/// The lines whose wires are equal.
fn equal(pairs: LinePairs) -> u32 {
    !(pairs.pos ^ pairs.neg) & 15
}

/// The bit of the turn's line, where it is a line's.
fn own(h: &Handler) -> u32 {
    match h.links.turn.whose() {
        Whose::Line(e) => 1 << e,
        Whose::Alert(_) => 0,
    }
}

/// Wrong pairs.
pub const SENT: &[(&str, Tick)] = &[
    ("a lone tick stays lone", |h, access, sample| {
        let mut given = h.tick(access, sample);
        let lengthened = h.links.senders.first & !given.output.lines;
        given.output.escalation.pos &= !lengthened;
        given.output.escalation.neg |= lengthened;
        given
    }),
    ("every line longer", |h, access, sample| {
        let mut given = h.tick(access, sample);
        given.output.escalation =
            LinePairs::sound(given.output.escalation.pos | h.links.senders.on);
        given
    }),
    ("a ping does not show", |h, access, sample| {
        let mut given = h.tick(access, sample);
        let opens = given.handler.links.lines & !h.links.lines & own(&h) & !given.output.lines;
        given.output.escalation = LinePairs::sound(given.output.escalation.pos & !opens);
        given
    }),
    ("a broken state sends on", |h, access, sample| {
        let mut given = h.tick(access, sample);
        if given.answer == Answer(-7) {
            given.output.escalation = LinePairs::sound(h.links.senders.last);
        }
        given
    }),
    ("all negative wires low at rest", |h, access, sample| {
        let mut given = h.tick(access, sample);
        if given.output.escalation == LinePairs::REST {
            given.output.escalation.neg = 0;
        }
        given
    }),
    ("bits above the lines sent", |h, access, sample| {
        let mut given = h.tick(access, sample);
        given.output.escalation.neg = !given.output.escalation.pos;
        given
    }),
];

/// Wrong checks of what comes back.
pub const CHECKED: &[(&str, Tick)] = &[
    ("nothing checked", |h, access, mut sample| {
        sample.receive = h.links.senders.right();
        h.tick(access, sample)
    }),
    ("equal wires are right", |h, access, mut sample| {
        let (equal, right) = (equal(sample.receive), h.links.senders.right());
        sample.receive.pos = sample.receive.pos & !equal | right.pos & equal;
        sample.receive.neg = sample.receive.neg & !equal | right.neg & equal;
        h.tick(access, sample)
    }),
    ("(1,1) is (1,0)", |h, access, mut sample| {
        sample.receive.neg &= !sample.receive.pos;
        h.tick(access, sample)
    }),
    ("line 3 not checked", |h, access, mut sample| {
        let right = h.links.senders.right();
        sample.receive.pos = sample.receive.pos & !8 | right.pos & 8;
        sample.receive.neg = sample.receive.neg & !8 | right.neg & 8;
        h.tick(access, sample)
    }),
    ("receive bits from 4 up count", |h, access, mut sample| {
        sample.receive.pos |= sample.receive.pos >> 4;
        h.tick(access, sample)
    }),
    ("checked only with the timer on", |h, access, mut sample| {
        if !h.timer.is_on() {
            sample.receive = h.links.senders.right();
        }
        h.tick(access, sample)
    }),
    (
        "a refused access stops the check",
        |h, access, mut sample| {
            if h.tick(access, sample).answer.0 < 0 {
                sample.receive = h.links.senders.right();
            }
            h.tick(access, sample)
        },
    ),
    ("a fault moves the right answer", |h, access, sample| {
        let mut given = h.tick(access, sample);
        let right = h.links.senders.right();
        if given.answer != Answer(-7) && sample.receive.pos & 15 != right.pos {
            given.handler.links.senders.answer = 0;
        }
        given
    }),
];

/// Wrong pings of lines.
pub const LINE_PINGS: &[(&str, Tick)] = &[
    ("answered in three", |mut h, access, sample| {
        if h.links.turn.count == 2 && h.links.lines & own(&h) != 0 {
            h.links.turn.count = 3;
        }
        h.tick(access, sample)
    }),
    (
        "a wrong answer before does not count",
        |mut h, access, sample| {
            h.links.right = 1;
            h.tick(access, sample)
        },
    ),
    ("a wrong answer is not kept", |h, access, sample| {
        let mut given = h.tick(access, sample);
        if given.answer != Answer(-7) && h.links.right == 1 {
            given.handler.links.right = 1;
        }
        given
    }),
    ("a ping right after a line", |mut h, access, sample| {
        let due = h.links.turn.count == 0 && h.links.lines & 15 == 0 && h.timer.is_on();
        if due {
            h.links.senders.last &= !own(&h);
        }
        h.tick(access, sample)
    }),
    ("an escalation fails the ping", |h, access, sample| {
        let mut given = h.tick(access, sample);
        let closed = h.links.lines & !given.handler.links.lines & given.output.lines & 15;
        if closed != 0 && h.locals.en[1] == 1 {
            given.handler.locals.cause[1] = 1;
        }
        given
    }),
];
