//! The facts of the lines' pairs.
use super::super::events::locals;
use super::super::pairs::{faults, sent};
use super::super::ticks::called;
use super::each_of;
use handler::{Edition, LinePairs, LINES};

/// Local 3 occurs where a receive pair is not the right answer, if it is enabled; nothing else makes it, and older editions never.
#[test]
fn a_wrong_answer_makes_local_alert_3_occur() {
    for edition in Edition::ALL {
        let (mut occurred, mut equal) = (0, 0);
        each_of(edition, &mut |t| {
            let faults = faults(t);
            let enabled = t.after.locals.en[3] == 1;
            let occurs = locals(t).any(|other| other == 3);
            assert_eq!(occurs, enabled && !faults.is_empty(), "tick {}", t.number);
            occurred += u64::from(occurs);
            let broken = faults.iter().filter(|fault| fault.came.0 == fault.came.1);
            equal += broken.count();
            let (receive, right) = (t.input.sample.receive, t.before.links.senders.right());
            for fault in faults {
                assert_eq!(fault.came, receive.pair(fault.line));
                assert_eq!(fault.right, right.pair(fault.line));
                assert_ne!(fault.right.0, fault.right.1);
            }
        });
        let has = edition.has_receive();
        assert_eq!((occurred > 1000, equal > 1000), (has, has));
    }
}

/// The pairs are those that a tick by call has, and a line that is on has its pair on.
#[test]
fn escalation_pairs_are_those_of_the_tick() {
    for edition in Edition::ALL {
        let (mut on, mut alone) = (0, 0);
        each_of(edition, &mut |t| {
            if edition.has_receive() {
                let access = called(edition, t.input.access, t.word);
                let output = t.before.tick(access, t.input.sample).output;
                assert_eq!(output.escalation, LinePairs::sound(sent(t)));
            }
            for e in 0..LINES {
                let pair = sent(t) >> e & 1 == 1;
                assert!(pair || !t.word.line(e), "tick {}", t.number);
                on += u64::from(pair);
                alone += u64::from(pair && !t.word.line(e));
            }
        });
        assert!(on > 1000 && alone > 100, "{on} {alone}");
    }
}
