//! The lane of the ping timer, where it is on: hollow while it waits, full while a ping is open, a cross where one fails.
use super::super::access::Mark;
use super::super::axis::Axis;
use super::super::layout::text_width;
use super::super::marks::{self, HEIGHT};
use super::super::page::Page;
use super::super::timer::Does;
use super::spans::{spans, Span};
use super::{begin, BETWEEN};
use crate::names;

/// The size of a name inside a span.
const SIZE: f64 = 7.5;

fn draw_span(page: &mut Page, span: &Span<Does>) {
    let (class, named) = match span.value {
        Some(Does::Nothing) => return,
        Some(Does::Waits(of)) => ("pause", Some((of, "short"))),
        // White, as the name of a dark state.
        Some(Does::Pings(of)) => ("high", Some((of, "s3 short"))),
        None => ("mixed", None),
    };
    page.rect(class, span.place.x, page.y, span.place.width, HEIGHT);
    if let Some((of, class)) = named {
        let name = names::pinged(of);
        if text_width(&name, SIZE) <= span.room.width {
            page.text(class, span.room.middle(), page.y + 8.0, &name);
        }
    }
}

/// What is said of a span where the pointer rests.
fn title(span: &Span<Does>) -> String {
    let words = match span.value {
        Some(Does::Nothing) => "off".to_string(),
        Some(Does::Waits(of)) => format!("waits for the ping of {}", names::pinged(of)),
        Some(Does::Pings(of)) => format!("ping of {} open", names::pinged(of)),
        None => "waits and pings".to_string(),
    };
    format!("ping timer: {words}, {}", span.ticks())
}

pub fn draw(page: &mut Page, axis: &Axis) {
    if !axis.cells.iter().any(|cell| cell.timer.on) {
        return;
    }
    begin(page, axis, "ping timer", HEIGHT);
    let all = spans(axis, |cell| cell.timer.does.value());
    for span in all.iter().filter(|span| span.value != Some(Does::Nothing)) {
        page.titled(&title(span), |page| draw_span(page, span));
    }
    for (cell, place) in axis.with_places().filter(|(cell, _)| cell.timer.failed) {
        let quarter = place.x + place.width / 4.0;
        let x = if cell.is_fold() {
            quarter
        } else {
            place.middle()
        };
        marks::access(page, Mark::Refused, x, page.y);
    }
    page.y += HEIGHT + BETWEEN;
}
