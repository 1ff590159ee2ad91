//! The accesses of a boot, for tools that write it as a trace. The library has its own, proved plan and asks nothing here.
use crate::alert_names::ALERT_NAMES;
use crate::input::{Access, Input, Sample};
use crate::registers::{Field, Register, Setting, MAP};
use crate::state::{Class, Handler, CLASSES};

/// The alerts that a boot installs, from alert 0 on.
pub const BOOT_ALERTS: usize = ALERT_NAMES.len();

/// A register that a boot writes and reads back, and its value.
pub type Entry = (Register, u32);

/// Each alert's CLASS, then its EN.
fn alerts(after: &Handler) -> impl Iterator<Item = Entry> + '_ {
    (0..BOOT_ALERTS).flat_map(|i| {
        [
            (
                Register::Alert(Field::Class, i),
                after.alerts.class[i].into(),
            ),
            (Register::Alert(Field::En, i), after.alerts.en[i].into()),
        ]
    })
}

/// A class's settings, in the order in which a boot writes them.
pub fn settings(class: &Class) -> [(Setting, u32); 7] {
    let [phase0, phase1, phase2, phase3] = class.lengths;
    [
        (Setting::AccumThresh, class.thresh.into()),
        (Setting::TimeoutCyc, class.timeout),
        (Setting::Phase0Cyc, phase0),
        (Setting::Phase1Cyc, phase1),
        (Setting::Phase2Cyc, phase2),
        (Setting::Phase3Cyc, phase3),
        (Setting::Ctrl, class.ctrl.into()),
    ]
}

fn classes(after: &Handler) -> impl Iterator<Item = Entry> + '_ {
    let entry = |k| move |(setting, value)| (Register::Class(k, setting), value);
    (0..CLASSES).flat_map(move |k| settings(&after.classes[k]).map(entry(k)))
}

/// The locks: REGWEN of alerts, then of classes.
fn locks(after: &Handler) -> impl Iterator<Item = Entry> + '_ {
    let alerts = (0..BOOT_ALERTS).filter(|i| after.alerts.regwen[*i] == 0);
    let classes = (0..CLASSES).filter(|k| after.classes[*k].regwen == 0);
    let alerts = alerts.map(|i| (Register::Alert(Field::Regwen, i), 0));
    alerts.chain(classes.map(|k| (Register::Class(k, Setting::Regwen), 0)))
}

/// What a boot of a new handler wrote, in its order, by the state after it: all that was written was read back.
pub fn entries(after: &Handler) -> Vec<Entry> {
    alerts(after)
        .chain(classes(after))
        .chain(locks(after))
        .collect()
}

/// The ticks of an entry: its writes, two where it is shadowed, and a read, all wires at rest.
pub fn inputs((register, value): Entry) -> Vec<Input> {
    let number = MAP
        .number(register)
        .expect("a boot's registers are all there");
    let mut accesses = vec![Access::Write(number, value); register.writes()];
    accesses.push(Access::Read(number));
    let at_rest = |access| Input::new(access, Sample::AT_REST);
    accesses.into_iter().map(at_rest).collect()
}
