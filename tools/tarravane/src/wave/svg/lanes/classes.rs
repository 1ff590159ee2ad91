//! A lane for each class: its states.
use super::super::axis::Axis;
use super::super::layout::text_width;
use super::super::page::Page;
use super::super::style;
use super::spans::{spans, Span};
use crate::names;
use handler::registers::LETTERS;

const HEIGHT: f64 = 20.0;
const STEP: f64 = 24.0;
/// The sizes of a state's name, and of its two letters.
const SIZE: f64 = 10.0;
const SHORT: f64 = 7.5;

/// The longest name of a state that has room, and its class.
fn label(state: u32, width: f64) -> Option<(&'static str, &'static str)> {
    let whole = [names::whole_state(state), names::state(state)];
    let fits = |name: &&str| text_width(name, SIZE) <= width - 3.0;
    let short = names::short_state(state);
    match whole.into_iter().find(fits) {
        Some(name) => Some((name, "on")),
        None if text_width(short, SHORT) <= width => Some((short, "short")),
        None => None,
    }
}

fn draw_span(page: &mut Page, y: f64, span: &Span<u32>) {
    let class = span.value.map_or("mixed", style::state);
    page.rect(class, span.place.x, y, span.place.width, HEIGHT);
    let label = span.value.and_then(|state| label(state, span.room.width));
    if let Some((name, size)) = label {
        let class = format!("{class} {size}");
        page.text(&class, span.room.middle(), y + 13.5, name);
    }
}

/// What is said of a span where the pointer rests.
fn title(k: usize, span: &Span<u32>) -> String {
    let state = span.value.map_or("several states", names::whole_state);
    format!("class {}: {state}, {}", LETTERS[k], span.ticks())
}

/// Draws these classes.
pub fn draw(page: &mut Page, axis: &Axis, classes: &[usize]) {
    for &k in classes {
        page.lane_name(&format!("class {}", LETTERS[k]), HEIGHT);
        let y = page.y;
        for span in spans(axis, |cell| cell.states[k].value()) {
            page.titled(&title(k, &span), |page| draw_span(page, y, &span));
        }
        page.y += STEP;
    }
}
