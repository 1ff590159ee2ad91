//! A trace to its text, and the text to its trace.
use super::ended;

/// The status of what a trace gives: 1 where it is cut or its N refused.
pub fn status(trace: &[u8]) -> i32 {
    let whole = match trace {
        [] | [253] | [254] | [255] => false,
        [253 | 254, n, records @ ..] => (1..=248).contains(n) && records.len() % 75 == 0,
        [255, n, records @ ..] => (1..=248).contains(n) && records.len() % 70 == 0,
        [n, records @ ..] => (1..=64).contains(n) && records.len() % 24 == 0,
    };
    i32::from(!whole)
}

pub fn text_of(trace: &[u8]) -> String {
    let (text, _) = ended("record", &["--back", "-"], trace, status(trace));
    String::from_utf8(text).expect("text")
}

/// The trace of a text; what it says of alerts at N and above is not looked at.
pub fn trace_of(text: &str, status: i32) -> Vec<u8> {
    ended("record", &["-"], text.as_bytes(), status).0
}

/// The text of the trace gives the same bytes.
pub fn goes_round(trace: &[u8]) {
    let text = text_of(trace);
    assert_eq!(trace_of(&text, status(trace)), trace, "{text}");
}
