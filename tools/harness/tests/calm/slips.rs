//! Slips of an engine, one part put wrong each.

use crate::engine::{self, left, refusal, to_trigger, Engine, NEVER};
use handler::{Access, Change, LinePairs, Output, Sample, Senders, CHANGES};
use std::mem::size_of;

/// What goes wrong, and how.
pub type Slip = (&'static str, fn(&mut Engine));

/// Slips in how many ticks are run, and when a class moves.
pub const TICKS: &[Slip] = &[
    ("one tick short", |e| {
        e.ticks = |ticks| ticks.saturating_sub(1)
    }),
    ("one tick more", |e| {
        e.ticks = |ticks| ticks.saturating_add(1)
    }),
    ("0 ticks run one", |e| e.ticks = |ticks| ticks.max(1)),
    ("ticks of 31 bits", |e| {
        e.ticks = |ticks| ticks & 0x7FFF_FFFF
    }),
    ("ticks of 16 bits", |e| e.ticks = |ticks| ticks & 0xFFFF),
    ("jumps one tick too far", |e| {
        e.stands = |class, meets| engine::stands(class, meets) + 1
    }),
    ("a jump before receivers have settled", |e| e.settling = 2),
    ("a jump at once", |e| e.settling = 0),
    ("a zero phase skipped", |e| {
        e.jumped = |class, meets, ticks| {
            let mut class = engine::jumped(class, meets, ticks);
            let next = class.state.wrapping_sub(3) as usize;
            let ends = matches!(class.state, 4..=6) && class.count >= class.lengths[next - 1];
            if ends && class.lengths[next] == 0 {
                class.state += 1;
            }
            class
        }
    }),
    ("the longest phase never ends", |e| {
        e.stands = |class, meets| match class.state {
            4..=7 if class.lengths[class.state as usize - 4] == u32::MAX => NEVER,
            _ => engine::stands(class, meets),
        }
    }),
    ("a timeout waits for its count alone", |e| {
        e.stands = |class, meets| match (class.state, meets.due) {
            (1, true) => left(class.timeout, class.count),
            _ => engine::stands(class, meets),
        }
    }),
    ("a timeout waits for a trigger alone", |e| {
        e.stands = |class, meets| match (class.state, meets.due) {
            (1, true) => to_trigger(class, meets),
            _ => engine::stands(class, meets),
        }
    }),
    ("a phase lasts one tick too long", |e| {
        e.stands = |class, meets| match class.state {
            4..=7 => engine::stands(class, meets) + 1,
            _ => engine::stands(class, meets),
        }
    }),
    ("Idle stays though events come", |e| {
        e.stands = |class, meets| match (class.state, meets.due) {
            (0, false) => NEVER,
            _ => engine::stands(class, meets),
        }
    }),
    ("the threshold is met one event late", |e| {
        e.stands = |class, meets| match (class.state, meets.due, meets.event) {
            (0, false, true) => to_trigger(class, meets) + 1,
            _ => engine::stands(class, meets),
        }
    }),
    ("Phase 3 is not waited for", |e| {
        e.stands = |class, meets| match class.state {
            7 => NEVER,
            _ => engine::stands(class, meets),
        }
    }),
];

/// Slips in what a jump leaves.
pub const JUMPS: &[Slip] = &[
    ("an accumulator that wraps", |e| {
        e.jumped = |class, meets, ticks| {
            let mut after = engine::jumped(class, meets, ticks);
            if meets.event {
                after.accum = class.accum.wrapping_add(ticks as u16);
            }
            after
        }
    }),
    ("an accumulator full at 65534", |e| {
        e.jumped = |class, meets, ticks| {
            let mut after = engine::jumped(class, meets, ticks);
            if ticks > 0 && after.accum > class.accum {
                after.accum = after.accum.min(65534);
            }
            after
        }
    }),
    ("events of a jump count once", |e| {
        e.jumped = |class, meets, ticks| {
            let mut after = engine::jumped(class, meets, ticks);
            if meets.event {
                after.accum = class.accum.saturating_add(u16::from(ticks > 0));
            }
            after
        }
    }),
    ("events are not counted in Terminal", |e| {
        e.jumped = |class, meets, ticks| {
            let mut after = engine::jumped(class, meets, ticks);
            if class.state == 3 {
                after.accum = class.accum;
            }
            after
        }
    }),
    ("events are not counted in a phase", |e| {
        e.jumped = |class, meets, ticks| {
            let mut after = engine::jumped(class, meets, ticks);
            if class.state > 3 {
                after.accum = class.accum;
            }
            after
        }
    }),
    ("a count left behind", |e| {
        e.jumped = |class, meets, ticks| {
            let mut after = engine::jumped(class, meets, ticks);
            after.count = class.count;
            after
        }
    }),
    ("Terminal counts its ticks", |e| {
        e.jumped = |class, meets, ticks| {
            let mut after = engine::jumped(class, meets, ticks);
            if class.state == 3 {
                after.count = ticks as u32;
            }
            after
        }
    }),
    ("an answer not turned", |e| e.sent = |senders, _| senders),
    ("an answer turned once a jump", |e| {
        e.sent = |senders, ticks| engine::sent(senders, u64::from(ticks > 0))
    }),
    ("the answers of all lines turned", |e| {
        e.sent = |senders, ticks| Senders {
            answer: senders.answer ^ if ticks % 2 == 1 { 15 } else { 0 },
            ..senders
        }
    }),
    ("line 3's answer not turned", |e| {
        e.sent = |senders, ticks| {
            let mut after = engine::sent(senders, ticks);
            after.answer = after.answer & !8 | senders.answer & 8;
            after
        }
    }),
    ("a jump drops the stages", |e| {
        e.kept = |mut state| {
            state.stages = handler::Stages::NONE;
            state
        }
    }),
    ("a jump clears the ping pairs", |e| {
        e.kept = |mut state| {
            state.links.receivers.level = [0; 4];
            state
        }
    }),
    ("a jump clears what stands above N", |e| {
        e.kept = |mut state| {
            let n = state.n;
            state.alerts.cause[n..].fill(0);
            state
        }
    }),
    ("a jump clears INTR_STATE", |e| {
        e.kept = |mut state| {
            state.interrupts.state = 0;
            state
        }
    }),
];

/// Slips in what comes in with a plain tick.
pub const SAMPLES: &[Slip] = &[
    ("receivers send (0,1)", |e| {
        e.sample = |_, wires| Sample::of(wires)
    }),
    ("what was sent before the call is not answered", |e| {
        e.begins = |mut given| {
            given.handler.links.senders.answer = 0;
            given
        }
    }),
    ("senders begin anew", |e| {
        e.begins = |mut given| {
            given.handler.links.senders = Senders::NEW;
            given
        }
    }),
    ("receivers begin ready", |e| {
        e.begins = |mut given| {
            let receivers = &mut given.handler.links.receivers;
            (receivers.pausing, receivers.busy) = ([0; 4], [0; 4]);
            given
        }
    }),
    ("wires at rest", |e| {
        e.sample = |state, _| engine::sample(state, handler::Wires::REST)
    }),
    ("equal wires taken for rest", |e| {
        e.sample = |state, mut wires| {
            for (pos, neg) in wires.pos.iter_mut().zip(&mut wires.neg) {
                let equal = !(*pos ^ *neg);
                (*pos, *neg) = (*pos & !equal, *neg | equal);
            }
            engine::sample(state, wires)
        }
    }),
];

/// The words that are right, for slips that change them.
fn right(was: u32, is: u32, tick: u64) -> Vec<Change> {
    (engine::RIGHT.words)(was, is, true, tick, 0)
}

/// Slips in the words of the list.
pub const WORDS: &[Slip] = &[
    ("a change a tick late", |e| {
        e.words = |was, is, _, tick, _| right(was, is, tick + 1)
    }),
    ("a change a tick early", |e| {
        e.words = |was, is, _, tick, _| right(was, is, tick - 1)
    }),
    ("the tick before the jump", |e| {
        e.words = |was, is, _, tick, from| match from + 1 < tick {
            true => right(was, is, from + 1),
            false => right(was, is, tick),
        }
    }),
    ("a tick of 16 bits", |e| {
        e.words = |was, is, _, tick, _| right(was, is, tick & 0xFFFF)
    }),
    ("a tick of 31 bits", |e| {
        e.words = |was, is, _, tick, _| right(was, is, tick & 0x7FFF_FFFF)
    }),
    ("line 3 first", |e| {
        e.words = |was, is, _, tick, _| {
            let lines = |lines: u32| (lines << 28).reverse_bits();
            right(lines(was), lines(is), tick)
        }
    }),
    ("the lines before", |e| {
        e.words = |was, is, _, tick, _| match was == is {
            true => Vec::new(),
            false => right(is, was, tick),
        }
    }),
    ("the lines that changed", |e| {
        e.words = |was, is, _, tick, _| match was == is {
            true => Vec::new(),
            false => vec![Change::new(was ^ is, tick as u32)],
        }
    }),
    ("a word for each line", |e| {
        e.words = |was, is, _, tick, _| {
            let word = Change::new(is, tick as u32);
            vec![word; (was ^ is).count_ones() as usize]
        }
    }),
    ("a word for each move", |e| {
        e.words = |_, is, moved, tick, _| match moved {
            true => vec![Change::new(is, tick as u32)],
            false => Vec::new(),
        }
    }),
    ("lines that go off are not told", |e| {
        e.words = |was, is, _, tick, _| match is & !was {
            0 => Vec::new(),
            _ => right(was, is, tick),
        }
    }),
    ("tick 1 changes nothing", |e| {
        e.words = |was, is, _, tick, _| match tick {
            1 => Vec::new(),
            _ => right(was, is, tick),
        }
    }),
    ("the senders say what was on", |e| {
        e.begins = |mut given| {
            given.output.lines = given.handler.links.senders.on & 15;
            given
        }
    }),
];

/// Slips in what comes back.
pub const GIVEN: &[Slip] = &[
    ("a later entry cleared", |e| {
        e.gives = |given, list, _| {
            if let Some(entry) = list.get_mut(given.answer.0 as usize) {
                *entry = Change(0);
            }
            given
        }
    }),
    ("the last entry touched", |e| {
        e.gives = |given, list, _| {
            if given.answer.0 < CHANGES as i64 {
                list[CHANGES - 1] = Change(0);
            }
            given
        }
    }),
    ("the answer is 0", |e| {
        e.gives = |mut given, _, _| {
            given.answer.0 = 0;
            given
        }
    }),
    ("the answer in bytes", |e| {
        e.gives = |mut given, _, _| {
            given.answer.0 *= size_of::<Change>() as i64;
            given
        }
    }),
    ("at most 19 changes", |e| {
        e.gives = |mut given, _, _| {
            given.answer.0 = given.answer.0.min(19);
            given
        }
    }),
    ("0 ticks show nothing", |e| {
        e.gives = |mut given, _, ticks| {
            if ticks == 0 {
                given.output = Output::AT_REST;
            }
            given
        }
    }),
    ("0 ticks show the senders' pairs", |e| {
        e.gives = |mut given, _, ticks| {
            if ticks == 0 {
                given.output.escalation = LinePairs::sound(given.handler.links.senders.last);
            }
            given
        }
    }),
    ("0 ticks show the pairs of a tick", |e| {
        e.gives = |mut given, _, ticks| {
            if ticks == 0 {
                let sample = Sample::AT_REST;
                given.output = given.handler.tick(Access::Nothing, sample).output;
            }
            given
        }
    }),
    ("pairs at rest at the end", |e| {
        e.gives = |mut given, _, _| {
            given.output.escalation = LinePairs::REST;
            given
        }
    }),
    ("no acknowledgement at the end", |e| {
        e.gives = |mut given, _, _| {
            given.output.acknowledge = handler::Wires::REST;
            given
        }
    }),
    ("INTR_STATE without INTR_ENABLE", |e| {
        e.gives = |mut given, _, _| {
            given.output.interrupts = given.handler.interrupts.state.into();
            given
        }
    }),
];

/// Slips in what is refused, and what comes of it.
pub const REFUSED: &[Slip] = &[
    ("18 at 20 entries", |e| {
        e.refusal = |state, length, _| refusal(state, length.saturating_sub(1))
    }),
    ("19 entries are enough", |e| {
        e.refusal = |state, length, _| refusal(state, length + 1)
    }),
    ("0 ticks need no entry", |e| {
        e.refusal = |state, length, ticks| match ticks {
            0 => refusal(state, CHANGES),
            _ => refusal(state, length),
        }
    }),
    ("18 before 15", |e| {
        e.refusal = |state, length, _| {
            let first = refusal(state, length);
            let short = first == Some(15) && length < CHANGES;
            if short {
                Some(18)
            } else {
                first
            }
        }
    }),
    ("18 before 7", |e| {
        e.refusal = |state, length, _| {
            let first = refusal(state, length);
            let short = first == Some(7) && length < CHANGES;
            if short {
                Some(18)
            } else {
                first
            }
        }
    }),
    ("15 before 7", |e| {
        e.refusal = |state, length, _| {
            let first = refusal(state, length);
            let on = first == Some(7) && state.timer.is_on();
            if on {
                Some(15)
            } else {
                first
            }
        }
    }),
    ("a timer that is on is taken for off", |e| {
        e.refusal = |state, length, _| {
            let mut off = *state;
            off.timer.enable = 0;
            off.links.lines &= !15;
            off.links.receivers.pending = [0; 4];
            refusal(&off, length).filter(|_| refusal(state, length).is_some())
        }
    }),
    ("7 for a timer that is on", |e| {
        e.refusal = |state, length, _| {
            let number = refusal(state, length);
            number.map(|number| if number == 15 { 7 } else { number })
        }
    }),
    ("9 for a short list", |e| {
        e.refusal = |state, length, _| {
            let number = refusal(state, length);
            number.map(|number| if number == 18 { 9 } else { number })
        }
    }),
    ("a refusal shows the state's lines", |e| {
        e.refused = |mut given, _| {
            given.output.lines = harness::calm::Plain::new(&given.handler).output.lines;
            given
        }
    }),
    ("a refusal shows the state's interrupts", |e| {
        e.refused = |mut given, _| {
            let interrupts = given.handler.interrupts;
            given.output.interrupts = (interrupts.state & interrupts.enable).into();
            given
        }
    }),
    ("a refusal clears the list", |e| {
        e.refused = |given, list| {
            list.fill(Change(0));
            given
        }
    }),
    ("a refusal touches the first entry", |e| {
        e.refused = |given, list| {
            list.iter_mut().take(1).for_each(|entry| entry.0 ^= 1);
            given
        }
    }),
    ("a refusal moves the state", |e| {
        e.refused = |mut given, _| {
            given.handler.classes[3].count ^= 1;
            given
        }
    }),
];
