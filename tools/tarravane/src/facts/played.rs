//! Ticks of a text, for unit tests; the lines of one in which `sound` stands answer as sound receivers do.
use super::tick::Tick;
use super::ticks::Ticks;
use crate::record::ends::Ends;
use crate::text::line::{self, Line};
use crate::trace::record::written;
use handler::{Access, Edition, Handler, Sample};

/// A handler whose ping timer has opened the ping of this alert, and waits for its answer.
pub fn pinging(mut handler: Handler, alert: usize) -> Handler {
    (handler.alerts.en[alert], handler.alerts.regwen[alert]) = (1, 0);
    handler.timer.enable = 1;
    handler.links.turn.alert = alert as u8;
    handler.tick(Access::Nothing, Sample::AT_REST).handler
}

/// The records of a text without `alerts`, of the newest edition, to a handler.
pub fn records(handler: Handler, text: &str) -> Vec<u8> {
    let edition = Edition::NEWEST;
    let mut ends = Ends::new(handler);
    let mut all = Vec::new();
    for text in text.lines() {
        let record = match line::parse(edition, text) {
            Ok(Line::Tick(mut input, sound)) => {
                input.sample.receive = ends.answer(sound, input.sample.receive);
                written(edition, &[input]).expect("a record")
            }
            Ok(Line::Raw(record)) => record,
            other => panic!("{other:?}"),
        };
        ends.tick(edition, &record);
        all.extend(record);
    }
    all
}

/// The ticks that they are to a handler.
pub fn played(handler: Handler, text: &str) -> Vec<Tick> {
    let bytes = records(handler, text);
    let mut from = &bytes[..];
    let mut ticks = Ticks::new(&mut from, "t", Edition::NEWEST, handler);
    let mut all = Vec::new();
    while let Some(tick) = ticks.take().expect("a tick") {
        all.push(tick);
    }
    all
}
