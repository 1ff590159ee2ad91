//! Dumps put together by hand from what the registers read, random states, and
//! states that are to have a given dump.

use super::shadowed::{held, shadowed, stage};
use super::Numbers;
use reference::class::{IDLE, PHASE3, TERMINAL, TIMEOUT};
use reference::{dump, Handler};

/// The bits of TDMP.
const TDMP: &str = "01010100010001000100110101010000";

/// The registers whose causes a dump shows, rising.
pub fn causes(n: u64) -> Vec<u16> {
    (40..=46).chain(1024..1024 + n as u16).collect()
}

/// The registers whose locks a dump shows, rising.
pub fn locks(n: u64) -> Vec<u16> {
    let mut all = vec![4];
    all.extend((16..=22).chain(256..256 + n as u16));
    all.extend([1280, 1282, 1296, 1298, 1312, 1314, 1328, 1330]);
    all
}

/// The shadowed registers and their largest values, rising.
pub fn rising(n: u64) -> Vec<(u16, u32)> {
    let mut rows = shadowed(n);
    rows.sort_unstable();
    rows
}

/// The bits of a dump from its fields, with as many zeros as it takes.
pub fn bits(n: u64, classes: &str, causes: &str, locks: &str, stages: &[(u16, u32)]) -> String {
    let mut bits = format!("{TDMP}{n:08b}{classes}{causes}{locks}");
    while bits.len() % 8 != 0 {
        bits.push('0');
    }
    bits += &format!("{:016b}", stages.len());
    for (register, value) in stages {
        bits += &format!("{register:016b}{value:032b}");
    }
    bits
}

/// The bits that the dump of a state must have, by reads of its registers.
pub fn expected(h: &Handler) -> String {
    let mut classes = String::new();
    for class in [1280, 1296, 1312, 1328] {
        let [state, count, accumulator] = [12, 11, 4].map(|at| held(h, class + at));
        classes += &format!("{state:03b}{count:032b}{accumulator:016b}");
    }
    let cause = |register: &u16| held(h, *register).to_string();
    let lock = |register: &u16| (1 - held(h, *register)).to_string();
    let staged = rising(h.n).into_iter().filter_map(|(register, _)| {
        let value = stage(h, register).checked_sub(1)?;
        Some((register, value as u32))
    });
    bits(
        h.n,
        &classes,
        &causes(h.n).iter().map(cause).collect::<String>(),
        &locks(h.n).iter().map(lock).collect::<String>(),
        &staged.collect::<Vec<_>>(),
    )
}

/// The bytes of a string of bits.
pub fn packed(bits: &str) -> Vec<u8> {
    assert_eq!(bits.len() % 8, 0);
    let bytes = bits.as_bytes().chunks(8);
    bytes
        .map(|byte| byte.iter().fold(0, |sum, bit| sum << 1 | (bit - b'0')))
        .collect()
}

/// The dump of an accepted state.
pub fn written(h: &Handler) -> Vec<u8> {
    let mut out = vec![0xA5; 4000];
    let length = usize::try_from(dump(h, &mut out)).unwrap();
    out.truncate(length);
    out
}

/// Stages a value by hand; a register that has no stage takes none.
pub fn set_stage(h: &mut Handler, number: u16, value: u32) {
    let (at, plus) = (usize::from(number), u64::from(value) + 1);
    let stages = &mut h.stages;
    let class = &mut stages.classes[at % 64 / 16];
    match at {
        5 => h.timer.stage = plus as u32,
        24..=30 => stages.locals.en[at - 24] = plus as u8,
        32..=38 => stages.locals.class[at - 32] = plus as u8,
        512..=759 => stages.alerts.en[at - 512] = plus as u8,
        768..=1015 => stages.alerts.class[at - 768] = plus as u8,
        1280..=1343 => match at % 16 {
            1 => class.ctrl = plus as u32,
            5 => class.thresh = plus as u32,
            6 => class.timeout = plus,
            at @ 7..=10 => class.lengths[at - 7] = plus,
            _ => {}
        },
        _ => {}
    }
}

/// A new handler of any number of alerts, 0 too.
pub fn of(n: u64) -> Handler {
    Handler::new(n).0
}

/// Any accepted state of N alerts, with about one in `few` stages open.
pub fn state(numbers: &mut Numbers, n: u64, few: u64) -> Handler {
    let mut h = of(n);
    for class in &mut h.classes {
        class.state = [IDLE, TIMEOUT, TERMINAL, 4, 5, 6, PHASE3][numbers.below(7) as usize];
        if ![IDLE, TERMINAL].contains(&class.state) {
            class.esc_cnt = (numbers.next() as u32 >> numbers.below(32)).max(1);
        }
        class.accum_cnt = numbers.next() as u16;
        (class.regwen, class.clr_regwen) = (numbers.below(2) as u8, numbers.below(2) as u8);
    }
    for source in h.locals.iter_mut().chain(&mut h.alerts) {
        (source.regwen, source.cause) = (numbers.below(2) as u8, numbers.below(2) as u8);
        source.en = numbers.below(2) as u8;
    }
    h.timer.regwen = numbers.below(2) as u8;
    for (register, largest) in shadowed(n) {
        if numbers.below(few) == 0 {
            set_stage(&mut h, register, numbers.next() as u32 & largest);
        }
    }
    assert!(h.valid());
    h
}

/// A number of `width` bits at `at`.
fn number(bits: &str, at: usize, width: usize) -> u32 {
    u32::from_str_radix(&bits[at..at + width], 2).unwrap()
}

/// Whether the bytes are a dump: the state that they would be the dump of, if
/// they were one, is accepted and has this dump. Nothing else is checked.
pub fn is_dump(bytes: &[u8]) -> bool {
    let bits: String = bytes.iter().map(|byte| format!("{byte:08b}")).collect();
    let n = match bytes.get(4) {
        Some(n) if *n <= 248 => usize::from(*n),
        _ => return false,
    };
    let head = (32 + 8 + 4 * 51 + 7 + n + 16 + n + 7) / 8 * 8;
    if bits.len() < head + 16 {
        return false;
    }
    let stages = number(&bits, head, 16) as usize;
    if bits.len() != head + 16 + 48 * stages {
        return false;
    }
    let mut h = of(n as u64);
    for (k, class) in h.classes.iter_mut().enumerate() {
        let at = 40 + 51 * k;
        class.state = number(&bits, at, 3) as u8;
        class.esc_cnt = number(&bits, at + 3, 32);
        class.accum_cnt = number(&bits, at + 35, 16) as u16;
        let lock = 244 + 7 + n + 8 + n + 2 * k;
        class.regwen = 1 - number(&bits, lock, 1) as u8;
        class.clr_regwen = 1 - number(&bits, lock + 1, 1) as u8;
    }
    let sources = h.locals.iter_mut().chain(&mut h.alerts[..n]);
    for (at, source) in sources.enumerate() {
        source.cause = number(&bits, 244 + at, 1) as u8;
        source.regwen = 1 - number(&bits, 244 + 7 + n + 1 + at, 1) as u8;
    }
    h.timer.regwen = 1 - number(&bits, 244 + 7 + n, 1) as u8;
    for at in (head + 16..bits.len()).step_by(48) {
        let register = number(&bits, at, 16) as u16;
        set_stage(&mut h, register, number(&bits, at + 16, 32));
    }
    h.valid() && written(&h) == bytes
}
