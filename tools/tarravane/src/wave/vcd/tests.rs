//! A trace that is not the same the second time.
use super::again::Again;
use super::{Opened, Played};
use crate::facts::played::{pinging, records};
use crate::output::Failure;
use crate::trace::Start;
use handler::{Edition, Handler};
use std::fs;

fn why(failure: Failure) -> String {
    match failure {
        Failure::Source(why) => why,
        Failure::Write(e) => panic!("{e}"),
    }
}

#[test]
fn fewer_ticks_are_told() {
    let edition = Edition::NEWEST;
    let start = Start {
        edition,
        n: Some(1),
    };
    let trace = &Opened {
        name: "t",
        start,
        bytes: None,
    };
    let handler = Handler::new(1).0;
    let played = Played { trace, handler };
    let bytes = vec![0; 3 * edition.bytes()];
    let looked = played.look(&mut &bytes[..]).map_err(why).expect("ticks");
    let dump = |bytes: &[u8]| {
        let mut out = Vec::new();
        let done = played.dump(&mut &bytes[..], Some(&looked), "a.vcd", &mut out);
        let done = done.map(|written| written.damage);
        done.map_err(why)
    };
    assert_eq!(dump(&bytes), Ok(None));
    // Ticks that came since are not shown.
    assert_eq!(dump(&bytes.repeat(2)), Ok(None));
    let changed = Err("t was changed while it was read".to_string());
    assert_eq!(dump(&bytes[1..]), changed);
}

/// The signals that the dump of a text's ticks declares for alerts.
fn alert_signals(handler: Handler, text: &str) -> Vec<String> {
    let start = Start {
        edition: Edition::NEWEST,
        n: Some(handler.n as u8),
    };
    let trace = &Opened {
        name: "t",
        start,
        bytes: None,
    };
    let (played, bytes) = (Played { trace, handler }, records(handler, text));
    let looked = played.look(&mut &bytes[..]).map_err(why).expect("ticks");
    let mut out = Vec::new();
    let dump = played.dump(&mut &bytes[..], Some(&looked), "a.vcd", &mut out);
    dump.map_err(why).expect("a dump");
    let text = String::from_utf8(out).expect("text");
    let names = text
        .split_whitespace()
        .filter(|word| word.starts_with("ALERT"));
    names.map(str::to_string).collect()
}

/// A handshake is shown of alerts that have one, a ping of those that are pinged.
#[test]
fn receivers_are_shown_where_they_move() {
    let text = "none wires 0=10 1=10 2=11\nnone";
    let of = |i: usize, names: &[&str]| -> Vec<String> {
        names
            .iter()
            .map(|name| format!("ALERT{i}_{name}"))
            .collect()
    };
    let wires = ["PAIR", "EVENT", "CAUSE"];
    let shaken = [&wires[..], &["PLACE", "ACK"]].concat();
    let pinged = [&shaken[..], &["PING", "ANSWER"]].concat();
    let wanted = [of(0, &shaken), of(1, &pinged), of(2, &wires)].concat();
    assert_eq!(alert_signals(pinging(Handler::new(4).0, 1), text), wanted);
}

#[test]
fn another_start_is_told() {
    let name = std::env::temp_dir().join(format!("tarravane-again-{}", std::process::id()));
    fs::write(&name, [253, 2]).expect("a file");
    let name = name.to_string_lossy();
    let again = Again::File(&name);
    let start = |n| Start {
        edition: Edition::NEWEST,
        n: Some(n),
    };
    assert!(again.records(start(2)).is_ok());
    let failure = again.records(start(3)).err().map(why);
    assert_eq!(
        failure,
        Some(format!("{name} was changed while it was read"))
    );
    fs::remove_file(&*name).expect("the file");
}
