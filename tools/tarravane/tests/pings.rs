//! What `explain` tells of the ping timer, in rows and in the summary.
mod common;

use common::{configured, example, explained, given};

/// The rows of a run that goes well, without the two lines above them.
fn rows(words: &[&str], input: &[u8]) -> Vec<String> {
    explained(words, input)[2..].to_vec()
}

/// Pings that are sent, answered and failed, and the turn that a tick's word sets; the word itself in wide rows.
#[test]
fn the_stuck_sender_is_told_tick_by_tick() {
    let trace = example("stuck-sender.trace");
    let rows = rows(&[&trace], &[]);
    let wide = self::rows(&[&trace, "--wide"], &[]);
    for (tick, end, said) in [
        (
            23,
            " [turn 1 in 4]",
            "write PING_TIMER_EN 1 entropy 0x10003 done ",
        ),
        (26, " Idle", "none "),
        (27, " [ping 1]", "none "),
        (
            29,
            " [ping 1] [answer 1] [turn line 0 in 2]",
            "none wires 1=10 entropy 0x1 ",
        ),
        (31, " [ping line 0]", "none "),
        (
            32,
            " [ping line 0] [answer line 0] [turn 0 in 3]",
            "none entropy 0x2 answers 0 ",
        ),
        (36, " [ping 0]", "read ALERT0_CAUSE "),
        (
            40,
            " LOC_ALERT0 [ping 0] [fail 0] [turn line 1 in 10]",
            "none entropy 0x9 ",
        ),
    ] {
        let (row, wide) = (&rows[tick - 1], &wide[tick - 1]);
        assert!(row.ends_with(end), "{row}");
        assert!(wide.ends_with(end), "{wide}");
        let said = format!("{tick:>6} {said}");
        assert!(wide.starts_with(&said), "{wide}");
        assert!(!row.contains("entropy"), "{row}");
    }
}

/// Also where the local alert is disabled, so that nothing else changes.
#[test]
fn a_failed_ping_is_a_change() {
    let text = "edition pings
        alerts 1
        write PING_TIMEOUT_CYC 2
        write PING_TIMEOUT_CYC 2
        write PING_TIMER_EN 1
        write PING_TIMER_REGWEN 0
        none
        none
        none
        none
        none";
    let trace = given("record", &["-"], text.as_bytes());
    let rows = rows(&["-", "--only-changes"], &trace);
    let numbers = rows.iter().map(|row| row[..6].trim_start());
    assert_eq!(numbers.collect::<Vec<_>>(), ["2", "3", "4", "7"]);
    assert!(rows[3].ends_with(" [ping line 0] [fail line 0] [turn 0 in 1]"));
}

/// What the summary of the edition `pings` says of the ping timer.
fn timer(text: &str) -> Vec<String> {
    let text = format!("edition pings\n{}", configured(text));
    let trace = given("record", &["-"], text.as_bytes());
    let all = explained(&["--summary", "-"], &trace);
    let from = all.iter().position(|line| line.starts_with("ping timer: "));
    let to = all
        .iter()
        .position(|line| line.starts_with("shadow writes"));
    all[from.expect("the timer")..to.expect("its end")].to_vec()
}

#[test]
fn the_ping_timer() {
    let on = "alerts 3
        configure ALERT1_EN 1
        write ALERT1_REGWEN 0
        configure PING_TIMEOUT_CYC 2
        write PING_TIMER_EN 1 entropy 0x10000
    ";
    for (text, wanted) in [
        (
            "none",
            "ping timer: on at 6; 1 ping: that of ALERT1 open at the end",
        ),
        (
            "none wires 1=10 entropy 9",
            "ping timer: on at 6; 1 ping: 1 answered",
        ),
        (
            "none wires 1=10\nnone answers 0\nnone",
            "ping timer: on at 6; 2 pings: 2 answered; 1 turn without a ping",
        ),
        ("", "ping timer: on at 6; no ping"),
    ] {
        assert_eq!(timer(&format!("{on}{text}")), [wanted]);
    }
    let failing = format!("{on}{}", "none entropy 0x10000\n".repeat(50));
    let wanted = [
        "ping timer: on at 6; 17 pings: 16 failed, that of ALERT1 open at the end",
        "  failed: ALERT1 at 9, line 0 at 12, ALERT1 at 15, line 1 at 18, ALERT1 at 21, line 2 at 24, ALERT1 at 27, line 3 at 30 and 5 more, then line 2 at 48, ALERT1 at 51, line 3 at 54",
    ];
    assert_eq!(timer(&failing), wanted);
    assert_eq!(timer("alerts 1\nnone"), ["ping timer: off"]);
}

#[test]
fn the_stuck_sender() {
    assert_eq!(
        explained(&["--summary", &example("stuck-sender.trace")], &[]).join("\n"),
        "\
alerts: 2; records of 75 bytes, edition pings; ticks: 53
class A: 1 start; clears accepted none, refused at 42
  start at 40 by LOC_ALERT0; locked, LOCK set; Ph0 40, Ph1 43, Ph2 46, Ph3 49, Term 52
    line 0 40-42, line 1 43-45, line 2 46-48, line 3 49-51
class B: no start; no clear
class C: no start; no clear
class D: no start; no clear
events:
  LOC_ALERT0: 1 occurrence, at 40
equal wires: none
switched on: ALERT0 at 2, ALERT1 at 5, LOC_ALERT0 at 8, class A at 19, LOCK of class A at 19, ping timer at 23
switched off: none
ping timer: on at 23; 4 pings: 3 answered, 1 failed
  failed: ALERT0 at 40
shadow writes: 9 staged, 9 committed; dropped none; open at the end none
other refusals: none
at the end:
  class A: EN 1, LOCK 1, ACCUM_THRESH 0, locked, clear locked; Terminal, ACCUM_CNT 1
  classes B, C, D: EN 0, LOCK 0, ACCUM_THRESH 0, not locked; Idle"
    );
}
