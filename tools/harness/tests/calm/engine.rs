//! An engine in plain Rust, over the library's tick: plain ticks until nothing
//! but counts moves, jumps by arithmetic, and a plain tick at the end of each
//! jump. Each part can be put wrong.

use handler::{
    Access, Answer, Calmed, Change, Class, Handler, Output, Sample, Senders, Wires, CHANGES,
    CLASSES,
};
use harness::calm::Plain;

/// More ticks than a call has.
pub const NEVER: u64 = 1 << 33;

/// What a class meets in every tick of a jump.
#[derive(Clone, Copy)]
pub struct Meets {
    /// It has an event.
    pub event: bool,
    /// It is due.
    pub due: bool,
}

/// What a call goes through on its way.
#[derive(Clone)]
pub struct Run {
    /// State, answer and outputs so far.
    pub at: Calmed,
    /// The ticks that are done.
    pub done: u64,
    /// Plain ticks since a class moved.
    pub quiet: u32,
}

/// An engine by its parts.
#[derive(Clone, Copy)]
pub struct Engine {
    /// The refusal of a state with a list of so many entries and so many ticks.
    pub refusal: fn(&Handler, usize, u32) -> Option<i64>,
    /// What comes with a refusal.
    pub refused: fn(Calmed, &mut [Change]) -> Calmed,
    /// What comes before the first tick.
    pub begins: fn(Calmed) -> Calmed,
    /// The ticks that are run of those that are asked for.
    pub ticks: fn(u32) -> u32,
    /// The plain ticks before a jump.
    pub settling: u32,
    /// Ticks in which a class stays where it is.
    pub stands: fn(&Class, Meets) -> u64,
    /// A class after a jump.
    pub jumped: fn(Class, Meets, u64) -> Class,
    /// The senders after a jump.
    pub sent: fn(Senders, u64) -> Senders,
    /// The state after a jump, its classes and senders apart.
    pub kept: fn(Handler) -> Handler,
    /// The sample of a plain tick.
    pub sample: fn(&Handler, Wires) -> Sample,
    /// The words of a tick, from the lines before and after it, whether a class
    /// moved, the tick, and the ticks before the jump that led there.
    pub words: fn(u32, u32, bool, u64, u64) -> Vec<Change>,
    /// What is given, of what is right and the list.
    pub gives: fn(Calmed, &mut [Change], u32) -> Calmed,
}

/// The engine without a slip.
pub const RIGHT: Engine = Engine {
    refusal: |state, length, _| refusal(state, length),
    refused: |given, _| given,
    begins: |given| given,
    ticks: |ticks| ticks,
    settling: 6,
    stands,
    jumped,
    sent,
    kept: |state| state,
    sample,
    words: |was, is, _, tick, _| match was == is {
        true => Vec::new(),
        false => vec![Change::new(is, tick as u32)],
    },
    gives: |given, _, _| given,
};

/// Refusals 7, 15, 18. A batch of no records says the first.
pub fn refusal(state: &Handler, length: usize) -> Option<i64> {
    let (_, answer) = state.batch(handler::Edition::NEWEST, &[], &mut []);
    match answer.0 {
        0 if state.timer.is_on() => Some(15),
        0 if length < CHANGES => Some(18),
        0 => None,
        _ => Some(7),
    }
}

/// Ticks up to a limit, from a count that is compared before it is raised.
pub fn left(limit: u32, count: u32) -> u64 {
    u64::from(limit.saturating_sub(count))
}

/// Ticks up to the trigger of a class with an event in every tick.
pub fn to_trigger(class: &Class, meets: Meets) -> u64 {
    match meets.event {
        true => left(class.thresh.into(), class.accum.into()),
        false => NEVER,
    }
}

pub fn stands(class: &Class, meets: Meets) -> u64 {
    let trigger = to_trigger(class, meets);
    match (class.state, meets.due) {
        (0, true) | (1, false) => 0,
        (0, false) => trigger,
        (1, true) => trigger.min(left(class.timeout, class.count)),
        (3, _) => NEVER,
        (phase, _) => left(class.lengths[phase as usize - 4], class.count),
    }
}

pub fn jumped(mut class: Class, meets: Meets, ticks: u64) -> Class {
    if meets.event {
        let more = u64::from(class.accum) + ticks;
        class.accum = more.min(65535) as u16;
    }
    if !matches!(class.state, 0 | 3) {
        class.count += ticks as u32;
    }
    class
}

/// A line that is on turns its answer in every tick.
pub fn sent(mut senders: Senders, ticks: u64) -> Senders {
    if ticks % 2 == 1 {
        senders.answer ^= senders.on;
    }
    senders
}

/// No access, the word 0, and what the senders expect.
pub fn sample(state: &Handler, wires: Wires) -> Sample {
    Sample {
        receive: state.links.senders.right(),
        ..Sample::of(wires)
    }
}

/// What each class meets in every tick, once receivers have settled.
fn meets(state: &Handler, wires: Wires) -> [Meets; CLASSES] {
    let heard = state.hear(Access::Nothing, sample(state, wires));
    let mut all = [Meets {
        event: false,
        due: false,
    }; CLASSES];
    for (k, meets) in all.iter_mut().enumerate() {
        let class = &state.classes[k];
        let enabled = class.ctrl & 1 == 1 && class.ctrl & 0x3C != 0;
        let local = usize::from(state.locals.class[2]) == k;
        meets.event = enabled && local && heard.locals >> 2 & 1 == 1;
        let bit = state.interrupts.state >> k & 1 == 1;
        meets.due = enabled && bit && class.timeout > 0;
    }
    all
}

impl Engine {
    /// Jumps up to the tick before the next one in which a class moves, or
    /// before the last.
    fn jump(&self, run: &mut Run, wires: Wires, last: u64) {
        let state = &mut run.at.handler;
        let meets = meets(state, wires);
        let each = (0..CLASSES).map(|k| (self.stands)(&state.classes[k], meets[k]));
        let ticks = each.min().unwrap_or(0).min(last - run.done - 1);
        for (k, meets) in meets.into_iter().enumerate() {
            state.classes[k] = (self.jumped)(state.classes[k], meets, ticks);
        }
        state.links.senders = (self.sent)(state.links.senders, ticks);
        *state = (self.kept)(*state);
        run.done += ticks;
    }

    /// One plain tick, and whether a class moved in it.
    fn tick(&self, run: &mut Run, wires: Wires) -> bool {
        let before = run.at.handler;
        let ticked = before.tick(Access::Nothing, (self.sample)(&before, wires));
        run.done += 1;
        (run.at.handler, run.at.output) = (ticked.handler, ticked.output);
        let states = |state: &Handler| state.classes.map(|class| class.state);
        let moved = states(&before) != states(&ticked.handler);
        run.quiet = if moved { 0 } else { run.quiet + 1 };
        moved
    }

    /// A calm call.
    pub fn calm(&self, state: Handler, wires: Wires, ticks: u32, list: &mut [Change]) -> Calmed {
        let at = |answer, output| Calmed {
            handler: state,
            answer: Answer(answer),
            output,
        };
        if let Some(number) = (self.refusal)(&state, list.len(), ticks) {
            return (self.refused)(at(-number, Output::AT_REST), list);
        }
        let mut run = Run {
            at: (self.begins)(at(0, Plain::new(&state).output)),
            done: 0,
            quiet: 0,
        };
        let last = u64::from((self.ticks)(ticks));
        let mut found = 0;
        while run.done < last {
            let (lines, from) = (run.at.output.lines, run.done);
            if run.quiet >= self.settling {
                self.jump(&mut run, wires, last);
            }
            let moved = self.tick(&mut run, wires);
            let lines = (lines, run.at.output.lines);
            for change in (self.words)(lines.0, lines.1, moved, run.done, from) {
                // One too many has no place.
                if let Some(entry) = list.get_mut(found) {
                    *entry = change;
                }
                found += 1;
            }
        }
        run.at.answer = Answer(found as i64);
        (self.gives)(run.at, list, ticks)
    }
}
