//! The state that the batches of a load start from.

use super::load::Load;
use super::maker::Maker;
use super::QUIET;
use crate::configure::configure;
use crate::record::{Head, WRITE};
use handler::registers::{Field, Setting, INTR_ENABLE, PING_ENABLE, PING_REGWEN, PING_TIMEOUT};
use handler::{Edition, CLASSES};

/// CTRL: EN, all four lines, line p in phase p.
const CTRL: u32 = 0x393D;

/// CTRL of class k in an escalation: EN, LOCK, all four lines, line e in phase
/// e + k. So with all classes in one phase, each drives another line.
fn locked_ctrl(k: usize) -> u32 {
    let phase = |e: usize| ((e + k) % CLASSES) as u32;
    (0..CLASSES).fold(0x3F, |ctrl, e| ctrl | phase(e) << (6 + 2 * e))
}

/// All alerts and local 2 enabled, where there are receive pairs local 3 too,
/// the alerts in all four classes, each enabled. Events are counted and start
/// nothing before the 65,536th of a class.
fn common(edition: Edition) -> Vec<(u16, u32)> {
    let map = edition.registers();
    let mut writes = vec![(INTR_ENABLE, 15), (map.local(Field::En, 2), 1)];
    if edition.has_receive() {
        writes.push((map.local(Field::En, 3), 1));
    }
    for i in 0..map.alerts {
        writes.push((map.alert(Field::Class, i), (i % CLASSES) as u32));
        writes.push((map.alert(Field::En, i), 1));
    }
    for k in 0..CLASSES {
        writes.push((map.class(k, Setting::AccumThresh), 0xFFFF));
        writes.extend(Setting::PHASES.map(|phase| (map.class(k, phase), 1000)));
        writes.push((map.class(k, Setting::Ctrl), CTRL));
    }
    writes
}

/// Pings run: all alerts locked, local 0 and 1 enabled, a timeout of 256 ticks,
/// the timer on and locked.
fn pinged(edition: Edition) -> Vec<(u16, u32)> {
    let map = edition.registers();
    let locks = (0..map.alerts).map(|i| (map.alert(Field::Regwen, i), 0));
    let mut writes: Vec<_> = locks.collect();
    writes.extend([0, 1].map(|j| (map.local(Field::En, j), 1)));
    writes.extend([(PING_TIMEOUT, 256), (PING_ENABLE, 1), (PING_REGWEN, 0)]);
    writes
}

/// The first event of a class starts it, for longer than so many records, and
/// nothing can change or clear it.
fn escalating(edition: Edition, records: usize) -> Vec<(u16, u32)> {
    let map = edition.registers();
    let length = records / 4 + 1;
    let mut writes = Vec::new();
    for k in 0..CLASSES {
        writes.push((map.class(k, Setting::AccumThresh), 0));
        writes.extend(Setting::PHASES.map(|phase| (map.class(k, phase), length as u32)));
        writes.push((map.class(k, Setting::Ctrl), locked_ctrl(k)));
        writes.push((map.class(k, Setting::Regwen), 0));
    }
    writes
}

/// The state that a batch of so many records starts from, of as many alerts as
/// the edition has. A season starts from a new handler: its boot is in it.
pub fn start(edition: Edition, load: Load, records: usize) -> reference::Handler {
    let (new, _) = reference::Handler::new(edition.alerts() as u64);
    let mut writes = common(edition);
    match load {
        Load::Season => return new,
        Load::Pings => writes.extend(pinged(edition)),
        Load::Escalation => writes.extend(escalating(edition, records)),
        _ => {}
    }
    let map = edition.registers();
    let mut maker = Maker::new(edition, new, 2 * writes.len());
    for (register, value) in writes {
        for (register, value) in configure(map, register, value) {
            maker.tick(Head::new(WRITE, register, value), QUIET, 0);
        }
    }
    maker.state
}
