//! What a call gets: an access, a sample, or a record of both.

use crate::generate::{far, WRITTEN};
use crate::record::{largest, pack, Head, Tail, KIND3, NONE, READ, WRITE};
use crate::rng::Rng;
use handler::registers::{Field, Map, Setting, MAP};
use handler::registers::{PING_ENABLE, PING_REGWEN, PING_TIMEOUT};
use handler::{Access, Edition, Handler, LinePairs, Sample, Wires, ALERTS, CLASSES, LOCALS};

/// A register number: mostly an assigned one, now and then a CLR.
pub fn register(map: Map, rng: &mut Rng) -> u16 {
    let k = rng.index(CLASSES);
    let any = rng.pick(&Setting::ALL);
    let near = rng.below(far(map).into()) as u16;
    let low = rng.below(map.local(Field::Cause, LOCALS).into()) as u16;
    let (clr, any) = (map.class(k, Setting::Clr), map.class(k, any));
    let far = rng.bits() as u16;
    let timer = PING_REGWEN + rng.below(1 + u64::from(PING_ENABLE - PING_REGWEN)) as u16;
    rng.pick(&[near, near, near, low, low, clr, any, any, far, timer])
}

/// Any access; the number may have more bits than a record's.
pub fn access(rng: &mut Rng) -> Access {
    let register = register(MAP, rng);
    match rng.below(14) {
        0 => Access::Nothing,
        1..=3 => Access::Read(register),
        4..=9 => Access::Write(register, rng.pick(&WRITTEN)),
        10 => {
            let lock = MAP.class(rng.index(CLASSES), Setting::Regwen);
            Access::Write(lock, rng.pick(&[0, 0, 0, 0, 1, 2]))
        }
        11 => Access::Write(PING_ENABLE, rng.pick(&[0, 1, 1, 1])),
        12 => Access::Write(PING_TIMEOUT, rng.pick(&[0, 1, 2, 65535])),
        _ => Access::Malformed,
    }
}

/// An access to what the turn of a state goes by: the drawn alert's lock and
/// EN, and the timeout, mostly with what is staged.
pub fn aimed(state: &Handler, rng: &mut Rng) -> Access {
    let i = usize::from(state.links.turn.alert).min(ALERTS - 1);
    let staged = state.stages.timeout.saturating_sub(1) as u32;
    match rng.below(4) {
        0 => Access::Write(MAP.alert(Field::En, i), rng.pick(&[0, 1, 1])),
        1 => Access::Write(PING_TIMEOUT, rng.pick(&[staged, staged, staged ^ 1])),
        _ => Access::Write(MAP.alert(Field::Regwen, i), 0),
    }
}

/// Wires at rest, all risen, some risen, or random with equal pairs.
pub fn wires(rng: &mut Rng) -> Wires {
    let way = rng.weighted(&[2, 2, 2, 2, 1, 1, 1]);
    let mut wires = Wires::REST;
    for (pos, neg) in wires.pos.iter_mut().zip(&mut wires.neg) {
        let (any, other) = (rng.bits(), rng.bits());
        let few = any & rng.bits() & rng.bits() & rng.bits();
        (*pos, *neg) = match way {
            0 => (0, u64::MAX),
            1 => (u64::MAX, 0),
            2 => (any, !any),
            3 => (few, !few),
            4 => (any, other),
            5 => (any, any),
            _ => (few, !any),
        };
    }
    wires
}

/// An entropy word: a short wait or any, an alert that may be there or any.
pub fn word(rng: &mut Rng) -> u32 {
    let any = rng.bits() as u32;
    let wait = rng.pick(&[0, 0, 1, 2, 3, 0xFFFE, 0xFFFF, any & 0xFFFF]);
    let there = rng.index(ALERTS) as u32;
    let alert = rng.pick(&[there, there, 0, 247, 248, 255, any >> 16 & 0xFF]);
    rng.pick(&[any, 0, u32::MAX]) & 0xFF00_0000 | alert << 16 | wait
}

/// Answers of no line, of one, of some, of all; bits from 4 up may be 1.
pub fn answers(rng: &mut Rng) -> u32 {
    let any = rng.bits() as u32;
    let one = 1 << rng.below(4);
    rng.pick(&[0, 0, one, one, any & 0xF, 0xF, any, any & !0xF])
}

/// Receive pairs: mostly the right ones, at times one of them wrong or equal,
/// or any; bits from 4 up may be 1.
pub fn receive(right: LinePairs, rng: &mut Rng) -> LinePairs {
    let any = rng.bits() as u32;
    let one = 1 << rng.below(4);
    let LinePairs { pos, neg } = right;
    let pairs = match rng.below(8) {
        0 => (pos ^ one, neg ^ one),
        1 => (pos ^ one, neg),
        2 => (pos, neg ^ one),
        3 => (any, any >> 8),
        _ => (pos, neg),
    };
    let above = rng.pick(&[0, 0, any & 0xFFF0]);
    LinePairs {
        pos: pairs.0 & 0xFFFF ^ above,
        neg: pairs.1 & 0xFFFF ^ above >> 8 & 0xFFF0,
    }
}

/// Any wires, any word, receive pairs that the state mostly asks for.
pub fn sample(state: &Handler, rng: &mut Rng) -> Sample {
    Sample {
        alerts: wires(rng),
        word: word(rng),
        receive: receive(state.links.senders.right(), rng),
    }
}

/// Any record, one in eight malformed.
pub fn record(edition: Edition, rng: &mut Rng) -> Vec<u8> {
    let kind = rng.pick(&[NONE, READ, READ, WRITE, WRITE]);
    let register = register(edition.registers(), rng) & largest(edition);
    let mut head = Head::new(kind, register, rng.pick(&WRITTEN));
    match head.kind {
        NONE => (head.register, head.value) = (0, 0),
        READ => head.value = 0,
        _ => {}
    }
    match rng.below(32) {
        0 => head.kind = KIND3,
        1 => head.rest = 1 << rng.below(edition.zero_bits().into()),
        2 => (head.kind, head.value) = (READ, 1),
        3 => (head.kind, head.value) = (NONE, 1),
        _ => {}
    }
    let Wires { pos, neg } = wires(rng);
    let (word, answers) = (word(rng), answers(rng));
    if edition.has_receive() {
        // Mostly those of lines at rest: any are right now and then.
        let rest = rng.pick(&[0, 0, answers]);
        let pairs = receive(LinePairs::sound(rest), rng);
        return pack(edition, head, (pos, neg), Tail::wired(word, pairs));
    }
    let mut tail = Tail::new(word, answers);
    if rng.once_in(32) {
        tail.last |= 0x10 << rng.below(4);
    }
    pack(edition, head, (pos, neg), tail)
}
