//! Ticks with a slip in their pairs or pings.

use crate::words::{acknowledging, and, but, each, equal, live, live_pairs, pairs};
use handler::{Access, Answer, Handler, Sample, Ticked, WORDS};
use harness::calls::Tick;

/// The right tick with something changed, unless the state is refused.
fn after(
    h: Handler,
    access: Access,
    sample: Sample,
    change: fn(&mut Ticked, &Handler, &Sample),
) -> Ticked {
    let mut given = h.tick(access, sample);
    if given.answer != Answer(-7) {
        change(&mut given, &h, &sample);
    }
    given
}

/// The same with the links of another tick: levels, open pings, the turn.
fn with_links(mut given: Ticked, right: &Ticked) -> Ticked {
    given.handler.links = right.handler.links;
    given.handler.timer = right.handler.timer;
    given.output.ping = right.output.ping;
    given
}

/// A due ping comes one tick later.
fn later(mut h: Handler) -> Handler {
    if h.timer.is_on() && h.links.turn.count == 0 {
        h.links.turn.count = 1;
    }
    h
}

/// The timer off, and no ping open.
fn without_pings(mut h: Handler) -> Handler {
    h.links.receivers.pending = but(h.links.receivers.pending, live(h.n));
    h.links.lines = 0;
    h.timer.enable = 0;
    h
}

/// Wrong acknowledge pairs.
pub const ACKNOWLEDGE: &[(&str, Tick)] = &[
    (
        "acknowledged in the tick of the rise",
        |h, access, sample| {
            after(h, access, sample, |given, h, _| {
                let now = acknowledging(&given.handler.links.receivers);
                given.output.acknowledge = live_pairs(now, h.n);
            })
        },
    ),
    (
        "no acknowledgement while wires are equal",
        |h, access, sample| {
            after(h, access, sample, |given, h, sample| {
                let now = but(acknowledging(&h.links.receivers), equal(sample));
                given.output.acknowledge = live_pairs(now, h.n);
            })
        },
    ),
    (
        "the acknowledgement drops after the pause",
        |h, access, sample| {
            after(h, access, sample, |given, h, _| {
                given.output.acknowledge = live_pairs(h.links.receivers.busy, h.n);
            })
        },
    ),
];

/// Wrong openings.
pub const OPENED: &[(&str, Tick)] = &[
    (
        "the level changes while the ping is open",
        |h, access, sample| {
            after(h, access, sample, |given, h, _| {
                let receivers = &mut given.handler.links.receivers;
                let open = and(receivers.pending, h.links.receivers.pending);
                let open = and(open, live(h.n));
                receivers.level = each(receivers.level, open, |level, open| level ^ open);
                given.output.ping = live_pairs(receivers.level, h.n);
            })
        },
    ),
    ("the level shows in the next tick", |h, access, sample| {
        after(h, access, sample, |given, h, _| {
            given.output.ping = live_pairs(h.links.receivers.level, h.n);
        })
    }),
    ("a ping opens at N and above", |h, access, sample| {
        after(h, access, sample, |given, h, _| {
            let i = usize::from(h.links.turn.alert);
            let due = h.timer.is_on() && h.links.turn.number % 2 == 0 && h.links.turn.count == 0;
            if due && i >= h.n {
                given.handler.links.receivers.pending[i / 64] |= 1 << (63 - i % 64);
            }
        })
    }),
    (
        "a due ping waits for a tick without access",
        |h, access, sample| match access {
            Access::Nothing => h.tick(access, sample),
            _ if h.links.receivers.pending == [0; WORDS] => later(h).tick(access, sample),
            _ => h.tick(access, sample),
        },
    ),
    ("a line's ping changes a level", |h, access, sample| {
        after(h, access, sample, |given, h, _| {
            if given.handler.links.lines & !h.links.lines & 15 != 0 {
                given.output.ping.pos[0] ^= 1 << 63;
            }
        })
    }),
];

/// Wrong answers.
pub const ANSWERED: &[(&str, Tick)] = &[
    (
        "a rise in the tick of the ping is an event",
        |h, access, sample| {
            let right = h.tick(access, sample);
            match right.answer {
                Answer(-7) => right,
                _ => with_links(later(h).tick(access, sample), &right),
            }
        },
    ),
    ("an answer is an event too", |h, access, sample| {
        let right = h.tick(access, sample);
        match right.answer {
            Answer(-7) => right,
            _ => with_links(without_pings(h).tick(access, sample), &right),
        }
    }),
    ("an answered ping stays open", |h, access, sample| {
        after(h, access, sample, |given, h, _| {
            let pending = &mut given.handler.links.receivers.pending;
            *pending = each(*pending, h.links.receivers.pending, |is, was| is | was);
        })
    }),
    ("a rise that is not taken answers", |h, access, sample| {
        after(h, access, sample, |given, h, sample| {
            let rises = and(but(sample.alerts.pos, sample.alerts.neg), live(h.n));
            let pending = &mut given.handler.links.receivers.pending;
            *pending = but(*pending, rises);
        })
    }),
    ("an answer puts the level back", |h, access, sample| {
        after(h, access, sample, |given, h, _| {
            let receivers = &mut given.handler.links.receivers;
            let closed = but(h.links.receivers.pending, receivers.pending);
            receivers.level = but(receivers.level, closed);
            given.output.ping = live_pairs(receivers.level, h.n);
        })
    }),
    (
        "equal wires do not matter while a ping is open",
        |h, access, sample| {
            let right = h.tick(access, sample);
            let quiet = and(equal(&sample), h.links.receivers.pending);
            let mut other = sample;
            other.alerts.pos = but(sample.alerts.pos, quiet);
            other.alerts.neg = each(sample.alerts.neg, quiet, |neg, quiet| neg | quiet);
            let mut given = h.tick(access, other);
            given.handler.links = right.handler.links;
            given.output.acknowledge = right.output.acknowledge;
            given.output.ping = right.output.ping;
            given
        },
    ),
];

/// Wrong pairs where no alert is, and on refusal 7.
pub const NOWHERE: &[(&str, Tick)] = &[
    ("levels at N and above shown", |h, access, sample| {
        after(h, access, sample, |given, _, _| {
            given.output.ping = pairs(given.handler.links.receivers.level);
        })
    }),
    (
        "acknowledgements at N and above shown",
        |h, access, sample| {
            after(h, access, sample, |given, h, _| {
                given.output.acknowledge = pairs(acknowledging(&h.links.receivers));
            })
        },
    ),
    ("both wires 0 at N and above", |h, access, sample| {
        after(h, access, sample, |given, h, _| {
            given.output.ping.neg = and(given.output.ping.neg, live(h.n));
        })
    }),
    ("both wires 0 at places 248 to 255", |h, access, sample| {
        after(h, access, sample, |given, _, _| {
            given.output.acknowledge.neg[3] &= !255;
        })
    }),
    ("levels shown on refusal 7", |h, access, sample| {
        let mut given = h.tick(access, sample);
        if given.answer == Answer(-7) {
            given.output.ping = live_pairs(h.links.receivers.level, h.n);
        }
        given
    }),
    ("all wires 0 on refusal 7", |h, access, sample| {
        let mut given = h.tick(access, sample);
        if given.answer == Answer(-7) {
            given.output.ping.neg = [0; WORDS];
        }
        given
    }),
];
