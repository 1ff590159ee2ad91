//! What may go wrong with the escalation wires, as far as words show it: one slip or more for each reading of request (xi).

use super::Slip;

const fn slip(
    name: &'static str,
    file: &'static str,
    right: &'static str,
    wrong: &'static str,
) -> Slip {
    Slip {
        name,
        file,
        right,
        wrong,
    }
}

/// The pair of a tick, what is right, and what counts as a fault.
const PAIR: &str = "let pair = on || self.first || pulse;";
const RIGHT: &str = "pair == (self.expected(), !self.expected())";
const FAULT: &str = "if right != 0xF {";
/// An answer of a ping that is not right.
const SPOILS: &str = "if count > 0 && (right >> e) & 1 == 0 {";
/// A ping that is due right after an escalation.
const RIGHT_AFTER: &str =
    "Turn::Line(e) if sample.checks() && self.senders[e].sent() => return Standing::Over,";
/// A line that closes the ping.
const CLOSES: &str = "Turn::Line(e) if (lines >> e) & 1 == 1 => {";

/// Slips about what is sent and what is right.
pub const SENDERS: &[Slip] = &[
    slip(
        "every line longer",
        "sender.rs",
        PAIR,
        "let pair = on || self.on || pulse;",
    ),
    slip(
        "a lone tick stays lone",
        "sender.rs",
        PAIR,
        "let pair = on || pulse;",
    ),
    slip(
        "a lone tick right after another pair stays lone",
        "sender.rs",
        "self.first = on && !self.on;",
        "self.first = on && !self.receiver.on();",
    ),
    slip(
        "a ping is not sent",
        "sender.rs",
        PAIR,
        "let pair = on || self.first;",
    ),
    slip(
        "the negative wire is not looked at",
        "sender.rs",
        RIGHT,
        "pair.0 == self.expected()",
    ),
    slip(
        "the positive wire is not looked at",
        "sender.rs",
        RIGHT,
        "pair.1 != self.expected()",
    ),
    slip(
        "(0,0) is right",
        "sender.rs",
        RIGHT,
        "pair == (false, false) || pair == (self.expected(), !self.expected())",
    ),
    slip(
        "one wrong answer of four forgiven",
        "escalation.rs",
        FAULT,
        "if right == 0 {",
    ),
    slip(
        "line 3 not checked",
        "escalation.rs",
        FAULT,
        "if right | 8 != 0xF {",
    ),
    slip(
        "checked only with the timer on",
        "escalation.rs",
        FAULT,
        "if right != 0xF && self.timer.on() {",
    ),
    slip(
        "local 2 in place of local 3",
        "escalation.rs",
        "self.occur(ESCALATION_INTEGRITY, assigned);",
        "self.occur(2, assigned);",
    ),
    slip(
        "a pair that comes on starts the answer anew",
        "answering.rs",
        "self.level = self.stand != Stand::Rest && !self.level;",
        "self.level = self.stand == Stand::First || self.stand != Stand::Rest && !self.level;",
    ),
    slip(
        "an escalation's last answer is not asked for",
        "answering.rs",
        "self.level = self.stand != Stand::Rest && !self.level;",
        "self.level = self.stand != Stand::Rest && !(self.level || self.stand == Stand::Third);",
    ),
];

/// Slips about the pings of lines.
pub const LINE_PINGS: &[Slip] = &[
    slip(
        "answered in three",
        "pings.rs",
        "const ANSWERED: u16 = 4;",
        "const ANSWERED: u16 = 3;",
    ),
    slip(
        "answered in five",
        "pings.rs",
        "const ANSWERED: u16 = 4;",
        "const ANSWERED: u16 = 5;",
    ),
    slip(
        "a wrong answer does not spoil the ping",
        "pings.rs",
        SPOILS,
        "if false {",
    ),
    slip(
        "a fault in the ping's own tick spoils it",
        "pings.rs",
        SPOILS,
        "if (right >> e) & 1 == 0 {",
    ),
    slip(
        "a fault of another line spoils the ping",
        "pings.rs",
        SPOILS,
        "if count > 0 && right != 0xF {",
    ),
    slip(
        "a ping right after an escalation opens",
        "pings.rs",
        RIGHT_AFTER,
        "Turn::Line(e) if sample.checks() && self.senders[e].on => return Standing::Over,",
    ),
    slip(
        "a line closes any line's ping",
        "pings.rs",
        CLOSES,
        "Turn::Line(_) if lines != 0 => {",
    ),
    slip(
        "a line closes no ping",
        "pings.rs",
        CLOSES,
        "Turn::Line(e) if (lines >> e) & 2 == 4 => {",
    ),
    slip(
        "a ping that a line closes fails",
        "pings.rs",
        "                self.close(turn);
                Standing::Over",
        "                self.close(turn);
                self.locals[ESCALATION_PING].cause = 1;
                Standing::Over",
    ),
    slip(
        "a line closes a ping of older records",
        "pings.rs",
        "if standing != Standing::Open || !sample.checks() {",
        "if standing != Standing::Open {",
    ),
    slip(
        "an escalation keeps a ping of older records from opening",
        "pings.rs",
        RIGHT_AFTER,
        "Turn::Line(e) if self.senders[e].sent() => return Standing::Over,",
    ),
];

/// Slips about the records.
pub const PAIRS: &[Slip] = &[
    slip(
        "older records checked",
        "escalation.rs",
        "None => return 0,",
        "None => LinePairs::at_rest(),",
    ),
    slip(
        "the pairs' last line first",
        "line_pairs.rs",
        "let bits = byte >> (6 - 2 * e);",
        "let bits = byte >> (2 * e);",
    ),
    slip(
        "the pairs' negative wire first",
        "line_pairs.rs",
        "(bits & 2 != 0, bits & 1 != 0)",
        "(bits & 1 != 0, bits & 2 != 0)",
    ),
    slip(
        "a zero bit of the last byte asked for",
        "trace.rs",
        "sample.receive = Some(LinePairs::from_byte(rest[4]));",
        "sample.receive = Some(LinePairs::from_byte(rest[4]));
        if rest[4] >> 7 == 1 {
            access = Access::Malformed;
        }",
    ),
    slip(
        "a first byte of 253 is N",
        "reference-replay.rs",
        "        Some(FOURTH) => (Edition::Fourth, byte(input)?),\n",
        "",
    ),
];
