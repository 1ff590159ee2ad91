//! The first tick with an event of an enabled alert, or with a local alert.
use super::telling::Telling;
use super::words;
use crate::facts::events::{alerts, is_enabled, locals, Source};
use crate::facts::tick::Tick;

#[derive(Default)]
pub struct First(Option<(u64, Vec<Source>)>);

impl First {
    pub fn add(&mut self, t: &Tick) {
        if self.0.is_some() {
            return;
        }
        let alerts = alerts(t).filter(|&i| is_enabled(&t.after, i));
        let alerts = alerts.map(Source::Alert);
        let all: Vec<Source> = alerts.chain(locals(t).map(Source::Local)).collect();
        if !all.is_empty() {
            self.0 = Some((t.number, all));
        }
    }

    pub fn words(&self, told: &Telling) -> String {
        match &self.0 {
            Some((tick, all)) => {
                let (by, tick) = (words::sources(told.style, all), told.tick(*tick));
                format!("first event of an enabled alert: {by} at {tick}")
            }
            None => "no event of an enabled alert".to_string(),
        }
    }
}
