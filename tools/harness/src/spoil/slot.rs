//! Where the library's state keeps the bits of a place.

use super::place::Place;
use handler::registers::{Field, Setting};
use handler::{Class, ClassStages, Handler};

/// Where a place's bits are kept.
enum Slot<'a> {
    Byte(&'a mut u8),
    Half(&'a mut u16),
    Word(&'a mut u32),
    Long(&'a mut u64),
    Size(&'a mut usize),
}

impl Place {
    /// The value in a state.
    pub fn get(self, state: &Handler) -> u64 {
        let mut copy = *state;
        match self.slot(&mut copy) {
            Slot::Byte(kept) => u64::from(*kept),
            Slot::Half(kept) => u64::from(*kept),
            Slot::Word(kept) => u64::from(*kept),
            Slot::Long(kept) => *kept,
            Slot::Size(kept) => *kept as u64,
        }
    }

    /// Stores the value's low bits, as many as are kept.
    pub fn set(self, state: &mut Handler, value: u64) {
        let value = value & (u64::MAX >> (64 - self.kept()));
        match self.slot(state) {
            Slot::Byte(kept) => *kept = value as u8,
            Slot::Half(kept) => *kept = value as u16,
            Slot::Word(kept) => *kept = value as u32,
            Slot::Long(kept) => *kept = value,
            Slot::Size(kept) => *kept = value as usize,
        }
    }

    fn slot(self, state: &mut Handler) -> Slot<'_> {
        match self {
            Place::N => Slot::Size(&mut state.n),
            Place::Receivers(bit, word) => {
                Slot::Long(&mut bit.words(&mut state.links.receivers)[word])
            }
            Place::IntrState => Slot::Half(&mut state.interrupts.state),
            Place::IntrEnable => Slot::Half(&mut state.interrupts.enable),
            Place::PingRegwen => Slot::Half(&mut state.timer.regwen),
            Place::PingTimeout => Slot::Word(&mut state.timer.timeout),
            Place::PingEnable => Slot::Half(&mut state.timer.enable),
            Place::PingStage => Slot::Long(&mut state.stages.timeout),
            Place::TurnNumber => Slot::Byte(&mut state.links.turn.number),
            Place::TurnAlert => Slot::Byte(&mut state.links.turn.alert),
            Place::TurnCount => Slot::Half(&mut state.links.turn.count),
            Place::Lines => Slot::Word(&mut state.links.lines),
            Place::Senders(sent) => Slot::Word(sent.bits(&mut state.links.senders)),
            Place::Right => Slot::Word(&mut state.links.right),
            Place::Class(k, setting) => class_slot(&mut state.classes[k], setting),
            Place::Alert(Field::Regwen, i) => Slot::Byte(&mut state.alerts.regwen[i]),
            Place::Alert(Field::En, i) => Slot::Byte(&mut state.alerts.en[i]),
            Place::Alert(Field::Class, i) => Slot::Byte(&mut state.alerts.class[i]),
            Place::Alert(Field::Cause, i) => Slot::Byte(&mut state.alerts.cause[i]),
            Place::Local(Field::Regwen, j) => Slot::Byte(&mut state.locals.regwen[j]),
            Place::Local(Field::En, j) => Slot::Byte(&mut state.locals.en[j]),
            Place::Local(Field::Class, j) => Slot::Byte(&mut state.locals.class[j]),
            Place::Local(Field::Cause, j) => Slot::Byte(&mut state.locals.cause[j]),
            Place::ClassStage(k, setting) => stage_slot(&mut state.stages.classes[k], setting),
            Place::AlertStage(Field::En, i) => Slot::Byte(&mut state.stages.alerts.en[i]),
            // REGWEN and CAUSE have no stage: no state has one as a place.
            Place::AlertStage(_, i) => Slot::Byte(&mut state.stages.alerts.class[i]),
            Place::LocalStage(Field::En, j) => Slot::Word(&mut state.stages.locals.en[j]),
            Place::LocalStage(_, j) => Slot::Word(&mut state.stages.locals.class[j]),
        }
    }
}

fn class_slot(class: &mut Class, setting: Setting) -> Slot<'_> {
    match setting {
        Setting::Regwen => Slot::Byte(&mut class.regwen),
        Setting::Ctrl => Slot::Half(&mut class.ctrl),
        Setting::ClrRegwen => Slot::Byte(&mut class.clrwen),
        Setting::AccumCnt => Slot::Half(&mut class.accum),
        Setting::AccumThresh => Slot::Half(&mut class.thresh),
        Setting::TimeoutCyc => Slot::Word(&mut class.timeout),
        Setting::Phase0Cyc => Slot::Word(&mut class.lengths[0]),
        Setting::Phase1Cyc => Slot::Word(&mut class.lengths[1]),
        Setting::Phase2Cyc => Slot::Word(&mut class.lengths[2]),
        Setting::Phase3Cyc => Slot::Word(&mut class.lengths[3]),
        Setting::EscCnt => Slot::Word(&mut class.count),
        // CLR holds no value: no state has it as a place.
        Setting::Clr | Setting::State => Slot::Word(&mut class.state),
    }
}

fn stage_slot(stages: &mut ClassStages, setting: Setting) -> Slot<'_> {
    match setting {
        Setting::Ctrl => Slot::Word(&mut stages.ctrl),
        Setting::AccumThresh => Slot::Word(&mut stages.thresh),
        Setting::Phase0Cyc => Slot::Long(&mut stages.lengths[0]),
        Setting::Phase1Cyc => Slot::Long(&mut stages.lengths[1]),
        Setting::Phase2Cyc => Slot::Long(&mut stages.lengths[2]),
        Setting::Phase3Cyc => Slot::Long(&mut stages.lengths[3]),
        // The others have no stage: no state has one as a place.
        _ => Slot::Long(&mut stages.timeout),
    }
}
