//! Equal wires: each alert's spans of ticks.
use super::kept::Kept;
use super::telling::Telling;
use crate::alert_bits::{alerts, AlertBits};
use crate::facts::tick::Tick;
use crate::facts::wires::broken;
use crate::json::{list, maybe, object};
use handler::WORDS;
use std::array::from_fn;
use std::collections::BTreeMap;

#[derive(Default)]
pub struct Equal {
    /// The alerts whose wires are equal in the last tick.
    open: AlertBits,
    /// By alert: the first tick of a span, and the last one where it has ended.
    spans: BTreeMap<usize, Kept<(u64, Option<u64>)>>,
}

/// The bits of one and not of the other.
fn less(one: &AlertBits, other: &AlertBits) -> [u64; WORDS] {
    from_fn(|word| one[word] & !other[word])
}

impl Equal {
    pub fn add(&mut self, t: &Tick) {
        let now = broken(t);
        if now == self.open {
            return;
        }
        for i in alerts(less(&self.open, &now)) {
            if let Some(span) = self.spans.get_mut(&i).and_then(Kept::newest_mut) {
                span.1 = Some(t.number - 1);
            }
        }
        for i in alerts(less(&now, &self.open)) {
            self.spans.entry(i).or_default().push((t.number, None));
        }
        self.open = now;
    }

    pub fn json(&self) -> String {
        let span = |(from, to): &(u64, Option<u64>)| {
            object(&[("from", from.to_string()), ("to", maybe(*to))])
        };
        let one = |(i, spans): (&usize, &Kept<_>)| {
            object(&[("alert", i.to_string()), ("spans", spans.json(span))])
        };
        list(self.spans.iter().map(one))
    }

    fn words(&self, told: &Telling) -> Vec<String> {
        let span = |(from, to): &(u64, Option<u64>)| told.span(*from, *to, "equal");
        let one = |(i, spans): (&usize, &Kept<_>)| {
            format!("{}: {}", told.style.alert(*i), spans.words(span))
        };
        self.spans.iter().map(one).collect()
    }

    pub fn lines(&self, told: &Telling) -> Vec<String> {
        match &self.words(told)[..] {
            [] => vec!["equal wires: none".to_string()],
            all => {
                let below = all.iter().map(|words| format!("  {words}"));
                ["equal wires:".to_string()]
                    .into_iter()
                    .chain(below)
                    .collect()
            }
        }
    }

    /// In one line, where there are any.
    pub fn short_line(&self, told: &Telling) -> Option<String> {
        match &self.words(told)[..] {
            [] => None,
            all => Some(format!("equal wires: {}", all.join("; "))),
        }
    }
}
