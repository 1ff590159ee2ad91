//! Calm ticks in one go are the plain ticks, through the wrapper: state, changes, outputs and refusals.
use handler::{
    Access, Answer, Calmed, Change, Handler, Output, Refusal, Sample, Wires, CHANGES, LINES,
};

/// What an entry holds that a call must not touch.
const KEPT: Change = Change(0xFEED_FACE_CAFE_BEEF);

/// EN and all line enables; line p is on in Phase p.
const EACH: u16 = 0x393D;

/// The wires with alert 0 at this pair.
fn alert_0(pos: bool, neg: bool) -> Wires {
    let mut wires = Wires::REST;
    wires.pos[0] = u64::from(pos) << 63;
    wires.neg[0] = u64::MAX >> 1 | u64::from(neg) << 63;
    wires
}

/// Alert 0 enabled in class 0, whose phases have P7's lengths.
fn ready() -> Handler {
    let mut h = Handler::new(1).0;
    h.alerts.en[0] = 1;
    (h.classes[0].ctrl, h.classes[0].lengths) = (EACH, [0, 10, 10, 5]);
    h.interrupts.enable = 15;
    h
}

/// One plain tick of the same inputs.
fn plain(h: Handler, wires: Wires) -> (Handler, Output) {
    let sample = Sample {
        receive: h.links.senders.right(),
        ..Sample::of(wires)
    };
    let ticked = h.tick(Access::Nothing, sample);
    assert_eq!(ticked.answer, Answer(0));
    (ticked.handler, ticked.output)
}

/// A calm call with some entries to spare, and the changes that it lists; the other entries stay.
fn calm(h: Handler, wires: Wires, ticks: u32) -> (Calmed, Vec<Change>) {
    let mut list = [KEPT; CHANGES + 3];
    let given = h.calm(wires, ticks, &mut list);
    let (changes, rest) = list.split_at(given.answer.0 as usize);
    assert!(rest.iter().all(|entry| *entry == KEPT));
    (given, changes.to_vec())
}

#[test]
fn an_escalation_is_told_by_its_changes() {
    let (given, changes) = calm(ready(), alert_0(true, false), 1000);
    let wanted = [(1, 1), (2, 2), (4, 12), (8, 22), (0, 27)];
    let wanted = wanted.map(|(lines, tick)| Change::new(lines, tick));
    assert_eq!(changes, wanted);
    assert_eq!(given.answer, Answer(5));
    assert_eq!((given.output.interrupts, given.output.lines), (1, 0));
    let class = given.handler.classes[0];
    assert_eq!((class.state, class.count, class.accum), (3, 0, 1));
}

/// Every number of ticks up to some, on wires of each kind.
#[test]
fn a_calm_call_is_its_ticks() {
    for (pos, neg) in [(false, true), (true, false), (true, true), (false, false)] {
        let wires = alert_0(pos, neg);
        let mut h = ready();
        (h.locals.en[2], h.locals.class[2]) = (1, 1);
        h.classes[1] = h.classes[0];
        h.classes[1].thresh = 30;
        let mut at = (h, Output::AT_REST);
        let mut wanted = Vec::new();
        for tick in 1..=80 {
            let lines = at.1.lines;
            at = plain(at.0, wires);
            if at.1.lines != lines {
                wanted.push(Change::new(at.1.lines, tick));
            }
            let (given, changes) = calm(h, wires, tick);
            assert_eq!((given.handler, given.output), at, "{tick}");
            assert_eq!(changes, wanted);
        }
    }
}

/// A line that stays on turns its right answer in every tick, also of a jump.
#[test]
fn the_longest_calm_has_its_last_outputs() {
    let mut h = ready();
    h.classes[0].lengths[3] = u32::MAX;
    let (given, changes) = calm(h, alert_0(true, false), u32::MAX);
    assert_eq!(changes.last(), Some(&Change::new(8, 22)));
    assert_eq!(given.handler.classes[0].count, u32::MAX - 21);
    assert_eq!((given.output.lines, given.output.escalation.pos), (8, 8));
    let (twin, _) = calm(h, alert_0(true, false), 101);
    assert_eq!(given.handler.links, twin.handler.links);
    let (next, _) = calm(h, alert_0(true, false), 100);
    let turned = given.handler.links.senders.answer ^ next.handler.links.senders.answer;
    assert_eq!(turned, 8);
}

#[test]
fn no_tick_shows_the_state() {
    let mut h = ready();
    (h.classes[0].state, h.classes[0].count) = (6, 1);
    h.interrupts.state = 5;
    h.links.receivers.busy[0] = 1 << 63;
    h.links.senders.on = 15;
    let (given, changes) = calm(h, Wires::REST, 0);
    assert_eq!((given.handler, given.answer), (h, Answer(0)));
    assert_eq!(changes, []);
    let wanted = Output {
        interrupts: 5,
        lines: 4,
        ..Output::AT_REST
    };
    assert_eq!(given.output, wanted);
}

/// Refused, of any number of ticks: nothing is changed, and the outputs are at rest.
fn refused(h: Handler, entries: usize, refusal: Refusal) {
    for ticks in [0, 1, u32::MAX] {
        let mut list = vec![KEPT; entries];
        let given = h.calm(alert_0(true, false), ticks, &mut list);
        assert_eq!(given.answer.value(), Err(refusal), "{ticks} {entries}");
        assert_eq!((given.handler, given.output), (h, Output::AT_REST));
        assert_eq!(list, vec![KEPT; entries]);
    }
}

#[test]
fn refusals_come_in_their_order() {
    let mut running = ready();
    (running.classes[0].state, running.classes[0].count) = (4, 1);
    running.interrupts.state = 1;
    let mut on = running;
    on.timer.enable = 1;
    let mut broken = on;
    broken.classes[3].state = 2;
    for entries in 0..=CHANGES + 1 {
        refused(broken, entries, Refusal(7));
        refused(on, entries, Refusal::TIMER_ON);
        if entries < CHANGES {
            refused(running, entries, Refusal::FEW_ENTRIES);
        }
    }
    assert_eq!(
        running.calm(Wires::REST, 0, &mut [KEPT; CHANGES]).answer,
        Answer(0)
    );
}

#[test]
fn the_pairs_of_all_lines_are_told_apart() {
    for e in 0..LINES {
        let mut h = ready();
        h.classes[0].ctrl = 1 | 1 << (2 + e);
        h.classes[0].lengths = [7; 4];
        let (given, changes) = calm(h, alert_0(true, false), 8);
        assert_eq!(changes, [Change::new(1 << e, 1), Change::new(0, 8)]);
        assert!(changes[0].line(e) && !changes[1].line(e));
        assert_eq!(given.output.escalation.pos, 0);
    }
}
