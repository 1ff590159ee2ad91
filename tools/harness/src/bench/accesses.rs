//! The accesses of the loads that read or write in each tick.

use crate::configure::configure;
use crate::record::{Head, READ, WRITE};
use crate::rng::Rng;
use handler::registers::{Field, Map, Register, Setting, INTR_BITS, PING_TIMEOUT_BITS};

/// Every register of a map, where all alerts are there.
fn all(map: Map) -> impl Iterator<Item = (u16, Register)> {
    (0..map.end()).filter_map(move |number| Some((number, map.register(number)?)))
}

/// The numbers of those that can be read: all but the write-only ones.
pub fn readable(map: Map) -> Vec<u16> {
    let closed = |register| {
        let clear = matches!(register, Register::Class(_, Setting::Clr));
        clear || register == Register::IntrTest
    };
    let open = all(map).filter(|it| !closed(it.1));
    open.map(|it| it.0).collect()
}

/// The numbers of those that can be written: all but the read-only ones.
pub fn writable(map: Map) -> Vec<u16> {
    use Setting::{AccumCnt, EscCnt, State};
    let closed = |register| matches!(register, Register::Class(_, AccumCnt | EscCnt | State));
    let open = all(map).filter(|it| !closed(it.1));
    open.map(|it| it.0).collect()
}

/// The reads: each time one of the registers that can be read, all as often.
pub fn reads(map: Map) -> impl Iterator<Item = Head> {
    let (registers, mut rng) = (readable(map), Rng::new(2));
    std::iter::repeat_with(move || Head::new(READ, rng.pick(&registers), 0))
}

/// The writes: each time one of the registers that can be written, all as often,
/// and a value that fits, by two equal writes one after the other where it is
/// shadowed. At 248 alerts 992 of the 1,066 registers are the alerts', half of
/// them shadowed; so two writes of three are to shadowed registers, the first
/// staged and the second committed. None is refused.
pub fn writes(map: Map) -> impl Iterator<Item = Head> {
    let (registers, mut rng) = (writable(map), Rng::new(3));
    let drawn = std::iter::repeat_with(move || {
        let number = rng.pick(&registers);
        (number, rng.bits() as u32)
    });
    drawn.flat_map(move |(number, bits)| {
        let register = map.register(number).expect("it is one of the map");
        let writes = configure(map, number, value(register, bits));
        let head = |(number, value)| Head::new(WRITE, number, value);
        writes.into_iter().map(head)
    })
}

/// Any value that fits, but for those after which the load would be another:
/// a lock stays open, since what is behind it would be refused from then on; the
/// ping timer stays off; and no class has a timeout, so that the interrupts that
/// INTR_TEST sets start nothing.
fn value(register: Register, any: u32) -> u32 {
    let low = |bits: u32| any & (u32::MAX >> (32 - bits));
    match register {
        Register::IntrState | Register::IntrEnable | Register::IntrTest => low(INTR_BITS),
        Register::PingRegwen => 1,
        Register::PingEnable => 0,
        Register::PingTimeout => low(PING_TIMEOUT_BITS),
        Register::Local(Field::Regwen, _) | Register::Alert(Field::Regwen, _) => 1,
        Register::Local(field, _) | Register::Alert(field, _) => low(field.bits()),
        Register::Class(_, Setting::Regwen | Setting::ClrRegwen) => 1,
        Register::Class(_, Setting::TimeoutCyc) => 0,
        Register::Class(_, setting) => low(setting.bits()),
    }
}
