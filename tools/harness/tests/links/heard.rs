//! Accounts with a slip in what they tell.

use crate::words::{and, each};
use handler::{Access, Answer, Heard, WORDS};
use harness::calls::Hear;

/// Wrong accounts of what is heard.
pub const HEARD: &[(&str, Hear)] = &[
    (
        "an event of a disabled alert not told",
        |h, access, sample| {
            let heard = h.hear(access, sample);
            let on = h.tick(access, sample).handler.alerts.en;
            let mut enabled = [0; WORDS];
            for (i, en) in on.iter().enumerate() {
                enabled[i / 64] |= u64::from(*en & 1) << (63 - i % 64);
            }
            Heard {
                events: and(heard.events, enabled),
                ..heard
            }
        },
    ),
    ("an answer told as an event", |h, access, sample| {
        let heard = h.hear(access, sample);
        let events = each(heard.events, heard.answers, |event, answer| event | answer);
        Heard { events, ..heard }
    }),
    ("answers not told", |h, access, sample| Heard {
        answers: [0; WORDS],
        ..h.hear(access, sample)
    }),
    (
        "a local alert with a reason told though disabled",
        |mut h, access, sample| {
            let answer = h.hear(access, sample).answer;
            h.locals.en[2] |= 1;
            Heard {
                answer,
                ..h.hear(access, sample)
            }
        },
    ),
    ("a failed ping not told", |h, access, sample| {
        let heard = h.hear(access, sample);
        Heard {
            locals: heard.locals & !3,
            ..heard
        }
    }),
    (
        "a failed ping told though its local alert is disabled",
        |mut h, access, sample| {
            let answer = h.hear(access, sample).answer;
            h.locals.en[0] |= 1;
            h.locals.en[1] |= 1;
            Heard {
                answer,
                ..h.hear(access, sample)
            }
        },
    ),
    (
        "what is heard told without the access",
        |h, access, sample| {
            let answer = h.hear(access, sample).answer;
            Heard {
                answer,
                ..h.hear(Access::Nothing, sample)
            }
        },
    ),
    ("something told on refusal 7", |h, access, sample| {
        let mut heard = h.hear(access, sample);
        if heard.answer == Answer(-7) {
            heard.events = sample.alerts.pos;
        }
        heard
    }),
];
