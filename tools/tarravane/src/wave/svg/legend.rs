//! What the colours and marks mean.
use super::access::Mark;
use super::layout::{text_width, MARGIN, RIGHT, SMALL};
use super::marks;
use super::page::Page;
use super::style;
use crate::names;

const STEP: f64 = 13.0;
/// The width of a sign.
const SIGN: f64 = 14.0;

/// STATE by its numbers, in the order of an escalation.
const STATES: [u32; 7] = [0, 1, 4, 5, 6, 7, 3];

/// A sign that is drawn at a place, and its meaning.
type Sign = (&'static str, fn(&mut Page, f64, f64));

const SIGNS: [Sign; 11] = [
    ("on", |page, x, y| page.rect("high", x, y, SIGN, 9.0)),
    ("event", |page, x, y| {
        marks::event(page, "event", x + 7.0, y)
    }),
    ("event while disabled", |page, x, y| {
        marks::event(page, "disabled", x + 7.0, y)
    }),
    ("wires (1,0)", |page, x, y| {
        page.rect("raised", x, y + 2.0, SIGN, 7.0)
    }),
    ("equal wires", |page, x, y| {
        page.rect("broken", x, y + 2.0, SIGN, 7.0)
    }),
    ("read", |page, x, y| {
        marks::access(page, Mark::Read, x + 7.0, y)
    }),
    ("write", |page, x, y| {
        marks::access(page, Mark::Write, x + 7.0, y)
    }),
    ("staged write", |page, x, y| {
        marks::access(page, Mark::Staged, x + 7.0, y)
    }),
    ("refused", |page, x, y| {
        marks::access(page, Mark::Refused, x + 7.0, y)
    }),
    ("ticks folded", |page, x, y| {
        page.path("tear", x + 6.0, y - 1.0, "l3 6l-3 6")
    }),
    ("changes inside a fold", |page, x, y| {
        page.rect("mixed", x, y, SIGN, 9.0)
    }),
];

/// Of the handshake, where there is one.
const HANDSHAKE: [Sign; 2] = [
    ("acknowledged", |page, x, y| {
        marks::strip(page, "ack", x, y + 3.0, SIGN)
    }),
    ("pause, in which a rise waits", |page, x, y| {
        marks::strip(page, "pause", x, y + 3.0, SIGN)
    }),
];

/// Of the ping timer, where it is on.
const TIMER: [Sign; 2] = [
    ("wait for a ping", |page, x, y| {
        page.rect("pause", x, y, SIGN, 9.0)
    }),
    ("failed ping", |page, x, y| {
        marks::access(page, Mark::Refused, x + 7.0, y)
    }),
];

/// Of a line's answers, where one is wrong.
const PAIRS: [Sign; 1] = [("wrong answer", |page, x, y| {
    marks::access(page, Mark::Refused, x + 7.0, y)
})];

/// Draws a sign right of the last one, or where there is no room on the next line; gives where it ends.
fn entry(page: &mut Page, x: f64, words: &str, sign: impl Fn(&mut Page, f64, f64)) -> f64 {
    let width = SIGN + 4.0 + text_width(words, SMALL) + 8.0;
    let mut x = x;
    if x + width > RIGHT {
        page.y += STEP;
        x = MARGIN;
    }
    sign(page, x, page.y);
    page.text("small", x + SIGN + 4.0, page.y + 8.0, words);
    x + width
}

/// `handshake`: is one shown? `timer`: is the ping timer? `wrong`: is a wrong answer of a line?
pub fn draw(page: &mut Page, handshake: bool, timer: bool, wrong: bool) {
    page.y += 10.0;
    let mut x = MARGIN;
    for state in STATES {
        x = entry(page, x, names::whole_state(state), |page, x, y| {
            page.rect(style::state(state), x, y, SIGN, 9.0);
        });
    }
    let shaken = HANDSHAKE.into_iter().filter(|_| handshake);
    let pinged = TIMER.into_iter().filter(|_| timer);
    let wrong = PAIRS.into_iter().filter(|_| wrong);
    let more = shaken.chain(pinged).chain(wrong);
    for (words, sign) in SIGNS.into_iter().chain(more) {
        x = entry(page, x, words, sign);
    }
    page.y += STEP + 4.0;
}
