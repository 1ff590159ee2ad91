//! `sound` and `receive` in a text, and what is told of the lines' pairs: a cut cable, a lone tick, a ping.
mod common;

use common::records::start;
use common::round::text_of;
use common::{configured, example, explained, given, said_of};
use handler::{Edition, Handler, LinePairs, LineReceivers, Word};
use std::fs;

fn trace_of(text: &str) -> Vec<u8> {
    given("record", &["-"], text.as_bytes())
}

/// Class A with all lines, line e in phase e, phases of these lengths; local alert 5 starts it, by two writes that differ.
fn escalating(phases: [u32; 4], ticks: usize) -> String {
    let mut text = "alerts 1\nconfigure LOC_ALERT5_EN 1\n".to_string();
    for (p, length) in phases.into_iter().enumerate() {
        text += &format!("configure CLASSA_PHASE{p}_CYC {length}\n");
    }
    text +=
        "configure LOC_ALERT3_EN 1\nconfigure LOC_ALERT3_CLASS 1\nconfigure CLASSA_CTRL 0x393f\n";
    text += "write ALERT0_EN 1\nwrite ALERT0_EN 0 sound\n";
    configured(&text) + &"none sound\n".repeat(ticks)
}

/// What is said of the lines in a summary.
fn wires(trace: &[u8]) -> Vec<String> {
    let all = explained(&["--summary", "-"], trace);
    let from = all
        .iter()
        .position(|line| line.starts_with("escalation wires"));
    let rest = all[from.expect("the lines")..].iter();
    rest.take_while(|line| !line.starts_with("shadow writes"))
        .cloned()
        .collect()
}

/// Whatever the lengths, a lone tick too, nobody has counted answers and none is wrong.
#[test]
fn sound_receivers_are_never_wrong() {
    for phases in [[1, 1, 1, 1], [2, 1, 3, 1], [3, 3, 3, 3], [1, 4, 2, 5]] {
        let trace = trace_of(&escalating(phases, 25));
        let told = wires(&trace);
        assert_eq!(told.len(), 5, "{told:?}");
        for (line, length) in told[1..].iter().zip(phases) {
            let ticks = length.max(2);
            assert!(
                line.contains(&format!("pair on in {ticks} ticks")),
                "{line}"
            );
            assert!(line.ends_with("; no wrong answer"), "{line}");
        }
        let text = text_of(&trace);
        assert!(text.contains(" receive ") && !text.contains("sound"));
        assert_eq!(trace_of(&text), trace);
    }
}

/// The pairs are those of the library's receivers, which hear what the handler sends.
#[test]
fn sound_pairs_are_the_receivers_answers() {
    let trace = trace_of(&escalating([1, 3, 1, 2], 20));
    let (mut handler, mut receivers) = (Handler::new(1).0, LineReceivers::NEW);
    let mut answered = 0;
    for record in trace[2..].chunks(Edition::Wires.bytes()) {
        let receive = LinePairs::of_byte(record[74]);
        assert_eq!(receive, receivers.sends());
        answered += receive.pos.count_ones();
        handler = handler
            .batch(Edition::Wires, record, &mut [Word::default()])
            .0;
        let sent = LinePairs::sound(handler.links.senders.last);
        receivers = receivers.listen(sent).receivers;
    }
    assert_eq!(trace[..2], start(Edition::Wires, 1));
    assert!(answered > 4, "{answered}");
}

/// Without `sound` the pairs are at rest, and each missing answer is told; with it, lines that are named are as the text says.
#[test]
fn what_is_missing_is_told() {
    let text = escalating([3, 3, 3, 3], 14).replace(" sound", "");
    let told = wires(&trace_of(&text));
    for (e, line) in told[1..].iter().enumerate() {
        assert!(line.starts_with(&format!("  line {e}: pair on in 3 ticks")));
        assert!(line.contains("; 2 wrong answers, first at "), "{line}");
        assert!(line.contains(": 01, not 10, last at "), "{line}");
    }
    let text = escalating([3, 3, 3, 3], 14).replace(" sound", " sound receive 2=11");
    let told = wires(&trace_of(&text));
    let wrong = told[1..]
        .iter()
        .filter(|line| !line.ends_with("no wrong answer"));
    let wrong: Vec<&String> = wrong.collect();
    assert_eq!(wrong.len(), 1);
    assert!(wrong[0].contains("line 2: ") && wrong[0].contains(": 11, not 01"));
}

/// Where N is refused no tick runs: the pairs stay at rest.
#[test]
fn sound_without_a_handler_is_rest() {
    let (trace, _) = common::ended("record", &["-"], b"alerts 0\nnone sound\n", 1);
    assert_eq!(trace[2..][74], LinePairs::REST.byte());
    assert_eq!(
        said_of("alerts 1\nread 2048\nnone sound\n"),
        "line 2: no record holds register 2048"
    );
}

/// In P + 1 local alert 3 starts the class, on the timeout local alert 1 follows; where the line is on before, it never does.
#[test]
fn the_cut_cables() {
    for (name, told) in [
        (
            "cut-cable",
            [
                "  LOC_ALERT1: 1 occurrence, at 35",
                "  LOC_ALERT3: 4 occurrences, first at 30, last at 42",
                "ping timer: on at 23; 2 pings: 1 answered, 1 failed",
                "  line 0: pair on in 4 ticks, first 29, last 41; 4 wrong answers, first at 30: 01, not 10, last at 42",
            ],
        ),
        (
            "cut-cable-first",
            [
                "events:",
                "  LOC_ALERT3: 2 occurrences, first at 30, last at 32",
                "ping timer: on at 23; 2 pings: 1 answered, 1 closed by an escalation",
                "  line 0: pair on in 4 ticks, first 29, last 32; 2 wrong answers, first at 30: 01, not 10, last at 32",
            ],
        ),
    ] {
        let summary = explained(&["--summary", &example(&format!("{name}.trace"))], &[]);
        for line in told {
            assert!(summary.iter().any(|other| other == line), "{line}");
        }
        let closes = summary.iter().any(|line| line.starts_with("  LOC_ALERT1:"));
        assert_eq!(closes, name == "cut-cable");
        let text = fs::read_to_string(example(&format!("{name}.txt"))).expect("the text");
        let trace = fs::read(example(&format!("{name}.trace"))).expect("the trace");
        assert_eq!(trace_of(&text), trace);
    }
}
