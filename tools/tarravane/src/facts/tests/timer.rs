//! The ping timer's facts.
use super::super::events::locals;
use super::super::timer::{begins, drawn, failed, ping, End};
use super::each_of;
use crate::alert_bits::count;
use handler::{Edition, Whose};

/// Local 0 occurs where an alert's ping fails, local 1 where a line's does, each where it is enabled; nothing else makes them.
#[test]
fn a_ping_that_fails_makes_its_local_alert_occur() {
    for edition in Edition::ALL {
        let mut seen = [0; 2];
        each_of(edition, &mut |t| {
            let failed = failed(t);
            let alert = matches!(failed, Some(Whose::Alert(_)));
            let line = matches!(failed, Some(Whose::Line(_)));
            for (j, fails) in [(0, alert), (1, line)] {
                let enabled = t.after.locals.en[j] == 1;
                let occurs = locals(t).any(|other| other == j);
                assert_eq!(occurs, fails && enabled, "tick {}", t.number);
                seen[j] += u64::from(occurs);
            }
        });
        assert_eq!(seen.iter().all(|number| *number > 10), edition.has_timer());
    }
}

/// A turn that ends is followed by the next one, which the tick's word sets; a ping is sent where it is due, to an alert that is
/// locked and enabled alone, and on a line with no escalation on its wires.
#[test]
fn turns_follow_each_other() {
    let (mut sent, mut ends) = (0, [0; 4]);
    each_of(Edition::NEWEST, &mut |t| {
        let (before, after) = (&t.before.links, &t.after.links);
        let word = t.input.sample.word;
        if let Some(turn) = drawn(t) {
            assert_eq!(turn.wait, (word & 0xFFFF) + 1);
            let number = if begins(t) { 0 } else { before.turn.number + 1 };
            assert_eq!(after.turn.number, number % 8, "tick {}", t.number);
            match turn.of {
                Whose::Alert(i) => assert_eq!((i as u32, number % 2), (word >> 16 & 255, 0)),
                Whose::Line(e) => assert_eq!((e as u8, number % 2), (number / 2 % 4, 1)),
            }
        }
        let ping = match ping(t) {
            Some(ping) => ping,
            None => return assert!(!t.before.timer.is_on() && drawn(t).is_some() == begins(t)),
        };
        assert_eq!(drawn(t).is_some(), ping.end.is_some());
        let pingable = match ping.of {
            Whose::Alert(i) => t.after.alerts.en[i] == 1 && t.after.alerts.regwen[i] == 0,
            Whose::Line(e) => {
                let free = !t.word.line(e) && before.senders.last >> e & 1 == 0;
                assert!(t.word.line(e) || ping.end != Some(End::Closed));
                free || ping.open
            }
        };
        assert!(pingable || !ping.sent);
        assert!(!pingable || ping.end != Some(End::Unsent));
        let open = count(after.receivers.pending) + after.lines.count_ones();
        assert_eq!(open, u32::from(ping.open && ping.end.is_none()));
        sent += u64::from(ping.sent);
        if let Some(end) = ping.end {
            ends[end as usize] += 1;
        }
    });
    assert!(
        sent > 1000 && ends.iter().all(|number| *number > 100),
        "{ends:?}"
    );
}
