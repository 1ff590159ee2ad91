//! Ticks in which one alert alone has an event or equal wires.

use super::coverage::Coverage;
use reference::handler::ALERT_INTEGRITY;
use reference::wires::wire;
use reference::{Handler, Place, Sample};

/// The only one, if there is one alone.
fn only(mut found: impl Iterator<Item = usize>) -> Option<usize> {
    let first = found.next()?;
    found.next().is_none().then_some(first)
}

impl Coverage {
    /// Takes in one tick of a trace: the handler before and after, and the
    /// sample. A rise that answers a ping is no event.
    pub fn alone(&mut self, before: &Handler, after: &Handler, sample: &Sample) {
        let enabled = |i: &usize| after.alerts[*i].en == 1;
        let events = (0..after.n as usize).filter(enabled);
        let taken = (Place::Ready, Place::Acknowledged);
        let moved = |i: usize| (before.receivers[i].place, after.receivers[i].place);
        let pinged = |i: usize| {
            let [was, is] = [before, after].map(|handler| handler.receivers[i]);
            was.open || was.ping != is.ping
        };
        let events = events.filter(|i| moved(*i) == taken && !pinged(*i));
        self.lone_events.extend(only(events));
        if after.locals[ALERT_INTEGRITY].en == 1 {
            let equal = (0..after.n as usize).filter(enabled);
            let equal = equal.filter(|i| wire(&sample.pos, *i) == wire(&sample.neg, *i));
            self.lone_equal.extend(only(equal));
        }
    }
}
