//! The lanes of a line's pairs, where they move: what is sent, and what comes back, with a cross where that is wrong.
use super::super::access::Mark;
use super::super::axis::Axis;
use super::super::cell::Cell;
use super::super::marks::{self, HEIGHT};
use super::super::page::Page;
use super::spans::spans;
use super::{begin, outputs};

const STEP: f64 = 14.0;

/// What is said of a receive pair where the pointer rests, and its class.
fn came(pair: Option<(bool, bool)>) -> Option<(&'static str, &'static str)> {
    match pair {
        Some((false, true)) => None,
        Some((true, false)) => Some(("raised", "(1,0)")),
        Some(_) => Some(("broken", "equal wires")),
        None => Some(("mixed", "several pairs")),
    }
}

fn draw_back(page: &mut Page, axis: &Axis, e: usize) {
    let name = format!("back {e}");
    begin(page, axis, &name, HEIGHT);
    for span in spans(axis, |cell| cell.pairs[e].came.value()) {
        if let Some((class, words)) = came(span.value) {
            let title = format!("{name}: {words}, {}", span.ticks());
            page.titled(&title, |page| {
                let y = page.y + 3.0;
                page.rect(class, span.place.x, y, span.place.width, HEIGHT - 3.0);
            });
        }
    }
    for (cell, place) in axis.with_places().filter(|(cell, _)| cell.pairs[e].wrong) {
        let x = match cell.is_fold() {
            true => place.x + place.width / 4.0,
            false => place.middle(),
        };
        marks::access(page, Mark::Refused, x, page.y);
    }
    page.y += STEP;
}

/// Below line e's own lane.
pub fn draw(page: &mut Page, axis: &Axis, e: usize) {
    if axis.cells.iter().any(|cell| cell.pairs[e].moves) {
        let sent = |cell: &Cell| cell.pairs[e].sent.value();
        outputs::draw_lane(page, axis, &format!("pair {e}"), sent);
        draw_back(page, axis, e);
    }
}
