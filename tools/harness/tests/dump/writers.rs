//! Writers with a slip.

use crate::fields::{fields, packed, Field, Kind};
use handler::registers::{Register, Setting};
use handler::{Answer, Content, Handler, ALERTS};
use harness::calls::reference_of;
use harness::dump::content_of;
use reference::Refusal;

/// What a writer does otherwise.
pub enum Slip {
    /// It writes other fields.
    Fields(fn(&mut Vec<Field>, &Handler)),
    /// It writes other bytes.
    Bytes(fn(&mut Vec<u8>)),
    /// It does something else with the dump, the buffer and whether 7 does not
    /// meet the state, and answers this.
    Call(fn(&[u8], &mut [u8], bool) -> i64),
}

use Slip::{Bytes, Call, Fields};

/// What is right to do.
fn right(dump: &[u8], out: &mut [u8], valid: bool) -> i64 {
    if !valid {
        return Refusal::BrokenState.answer();
    }
    if out.len() < dump.len() {
        return Refusal::ShortBuffer.answer();
    }
    out[..dump.len()].copy_from_slice(dump);
    dump.len() as i64
}

/// A writer with a slip, or without one.
pub fn write(slip: Option<&Slip>, state: Handler, out: &mut [u8]) -> Answer {
    let twin = reference_of(&state);
    let content = match twin.n <= ALERTS as u64 {
        true => content_of(&reference::Content::of(&twin)),
        false => Content::NOTHING,
    };
    let mut all = fields(&content);
    if let Some(Fields(change)) = slip {
        change(&mut all, &state);
    }
    let mut dump = packed(&all);
    if let Some(Bytes(change)) = slip {
        change(&mut dump);
    }
    let call = match slip {
        Some(Call(call)) => *call,
        _ => right,
    };
    Answer(call(&dump, out, twin.valid()))
}

/// The fields of a kind.
fn of(all: &mut [Field], kind: fn(Kind) -> bool) -> impl Iterator<Item = &mut Field> {
    all.iter_mut().filter(move |it| kind(it.kind))
}

fn is_lock(kind: Kind) -> bool {
    matches!(kind, Kind::Lock(_))
}

fn is_clear(kind: Kind) -> bool {
    matches!(kind, Kind::Lock(Register::Class(_, Setting::ClrRegwen)))
}

/// Takes the fields of a kind out.
fn taken(all: &mut Vec<Field>, kind: fn(Kind) -> bool) -> Vec<Field> {
    let some: Vec<Field> = all.iter().copied().filter(|it| kind(it.kind)).collect();
    all.retain(|it| !kind(it.kind));
    some
}

/// Puts fields before the first of a kind.
fn put(all: &mut Vec<Field>, some: Vec<Field>, before: fn(Kind) -> bool) {
    let at = all.iter().position(|it| before(it.kind));
    let at = at.unwrap_or(all.len());
    all.splice(at..at, some);
}

fn is_padding(kind: Kind) -> bool {
    kind == Kind::Padding
}

/// The stages, each with its value.
fn stages(all: &mut Vec<Field>) -> Vec<[Field; 2]> {
    let some = taken(all, |it| matches!(it, Kind::Stage | Kind::Value));
    some.chunks(2).map(|two| [two[0], two[1]]).collect()
}

/// Puts stages in place of those that there are.
fn restage(all: &mut Vec<Field>, some: Vec<[Field; 2]>) {
    of(all, |it| it == Kind::Number).for_each(|it| it.value = some.len() as u64);
    all.extend(some.into_iter().flatten());
}

/// Every slip; the default set must find each.
pub const SLIPS: &[(&str, Slip)] = &[
    ("another mark", Fields(|all, _| all[3].value = b'Q'.into())),
    ("no mark", Fields(|all, _| drop(all.drain(..4)))),
    ("N in 16 bits", Fields(|all, _| all[4].width = 16)),
    (
        "N behind the classes",
        Fields(|all, _| all[4..17].rotate_left(1)),
    ),
    ("class D first", Fields(|all, _| all[5..17].reverse())),
    (
        "the accumulator before the count",
        Fields(|all, _| all.swap(6, 7)),
    ),
    (
        "STATE in 4 bits",
        Fields(|all, _| of(all, |it| it == Kind::State).for_each(|it| it.width = 4)),
    ),
    (
        "Timeout for Phase 0",
        Fields(|all, _| {
            of(all, |it| it == Kind::State)
                .filter(|it| it.value == 4)
                .for_each(|it| it.value = 1)
        }),
    ),
    (
        "a count of 16 bits",
        Fields(|all, _| of(all, |it| it == Kind::Count).for_each(|it| it.value &= 0xFFFF)),
    ),
    (
        "an accumulator of 15 bits",
        Fields(|all, _| of(all, |it| it == Kind::Accumulator).for_each(|it| it.value &= 0x7FFF)),
    ),
    (
        "causes inverted",
        Fields(|all, _| of(all, |it| matches!(it, Kind::Cause(_))).for_each(|it| it.value ^= 1)),
    ),
    (
        "causes of alerts first",
        Fields(|all, _| {
            let locals = taken(all, |it| matches!(it, Kind::Cause(Register::Local(..))));
            put(all, locals, is_lock);
        }),
    ),
    (
        "locks inverted",
        Fields(|all, _| of(all, is_lock).for_each(|it| it.value ^= 1)),
    ),
    (
        "one lock inverted",
        Fields(|all, _| {
            of(all, |it| {
                it == Kind::Lock(Register::Class(2, Setting::ClrRegwen))
            })
            .for_each(|it| it.value ^= 1)
        }),
    ),
    (
        "locks before causes",
        Fields(|all, _| {
            let causes = taken(all, |it| matches!(it, Kind::Cause(_)));
            put(all, causes, is_padding);
        }),
    ),
    (
        "CLR_REGWEN left out",
        Fields(|all, _| drop(taken(all, is_clear))),
    ),
    (
        "CLR_REGWEN always open",
        Fields(|all, _| of(all, is_clear).for_each(|it| it.value = 0)),
    ),
    (
        "CLR_REGWEN behind every REGWEN",
        Fields(|all, _| {
            let clears = taken(all, is_clear);
            put(all, clears, is_padding);
        }),
    ),
    (
        "CLR_REGWEN before its REGWEN",
        Fields(|all, _| {
            let classes = taken(all, |it| matches!(it, Kind::Lock(Register::Class(..))));
            let turned = classes.chunks(2).flat_map(|two| [two[1], two[0]]).collect();
            put(all, turned, is_padding);
        }),
    ),
    (
        "the ping timer's lock last",
        Fields(|all, _| {
            let timer = taken(all, |it| it == Kind::Lock(Register::PingRegwen));
            put(all, timer, is_padding);
        }),
    ),
    (
        "the ping timer's lock left out",
        Fields(|all, _| drop(taken(all, |it| it == Kind::Lock(Register::PingRegwen)))),
    ),
    (
        "ones to a full byte",
        Fields(|all, _| of(all, is_padding).for_each(|it| it.value = u64::MAX)),
    ),
    ("no padding", Fields(|all, _| drop(taken(all, is_padding)))),
    (
        "the number of stages left out at 0",
        Fields(|all, _| all.retain(|it| it.kind != Kind::Number || it.value > 0)),
    ),
    (
        "one stage more in the number",
        Fields(|all, _| of(all, |it| it == Kind::Number).for_each(|it| it.value += 1)),
    ),
    (
        "the number of stages in 8 bits",
        Fields(|all, _| of(all, |it| it == Kind::Number).for_each(|it| it.value &= 255)),
    ),
    (
        "stages falling",
        Fields(|all, _| {
            let mut some = stages(all);
            some.reverse();
            restage(all, some);
        }),
    ),
    (
        "stages of 0 left out",
        Fields(|all, _| {
            let mut some = stages(all);
            some.retain(|two| two[1].value > 0);
            restage(all, some);
        }),
    ),
    (
        "the stage of PING_TIMEOUT_CYC left out",
        Fields(|all, _| {
            let mut some = stages(all);
            some.retain(|two| two[0].value != 5);
            restage(all, some);
        }),
    ),
    (
        "the last class's stages left out",
        Fields(|all, _| {
            let mut some = stages(all);
            some.retain(|two| two[0].value < 1328);
            restage(all, some);
        }),
    ),
    (
        "one more in a staged value",
        Fields(|all, _| of(all, |it| it == Kind::Value).for_each(|it| it.value += 1)),
    ),
    (
        "a staged value of 31 bits",
        Fields(|all, _| of(all, |it| it == Kind::Value).for_each(|it| it.value &= 0x7FFF_FFFF)),
    ),
    (
        "a stage of no alert shown",
        Fields(|all, state| {
            let n = state.n;
            if n < ALERTS && state.stages.alerts.class[n] > 0 {
                let mut some = stages(all);
                let value = u64::from(state.stages.alerts.class[n]) - 1;
                let kinds = [(Kind::Stage, 16, 768 + n as u64), (Kind::Value, 32, value)];
                let new = kinds.map(|(kind, width, value)| Field { kind, width, value });
                let at = some.iter().position(|two| two[0].value > 768 + n as u64);
                some.insert(at.unwrap_or(some.len()), new);
                restage(all, some);
            }
        }),
    ),
    (
        "the lowest bit first",
        Bytes(|dump| {
            dump[5..]
                .iter_mut()
                .for_each(|byte| *byte = byte.reverse_bits())
        }),
    ),
    ("a byte more", Bytes(|dump| dump.push(0))),
    (
        "11 before 7",
        Call(|dump, out, valid| match out.len() < dump.len() {
            true => -11,
            false => right(dump, out, valid),
        }),
    ),
    (
        "7 not looked at",
        Call(|dump, out, _| right(dump, out, true)),
    ),
    (
        "a buffer of just so many bytes refused",
        Call(|dump, out, valid| match valid && out.len() == dump.len() {
            true => -11,
            false => right(dump, out, valid),
        }),
    ),
    (
        "a short buffer filled",
        Call(|dump, out, valid| {
            let length = out.len().min(dump.len());
            if valid {
                out[..length].copy_from_slice(&dump[..length]);
            }
            right(dump, out, valid)
        }),
    ),
    (
        "a refused buffer cleared",
        Call(|dump, out, valid| {
            if !valid {
                out.fill(0);
            }
            right(dump, out, valid)
        }),
    ),
    (
        "later bytes cleared",
        Call(|dump, out, valid| {
            let answer = right(dump, out, valid);
            if answer > 0 {
                out[dump.len()..].fill(0);
            }
            answer
        }),
    ),
    (
        "0 answered",
        Call(|dump, out, valid| right(dump, out, valid).min(0)),
    ),
];
