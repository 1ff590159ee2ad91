//! What an alert's receiver does: a strip in the alert's lane, and a lane of its ping pair where that moves.
use super::super::axis::Axis;
use super::super::cell::Cell;
use super::super::marks;
use super::super::page::Page;
use super::outputs;
use super::spans::spans;
use crate::alert_bits::is_set;
use crate::names;
use handler::Place;

/// Above the wires: where the receiver stands, where it is not ready.
pub fn draw_strip(page: &mut Page, axis: &Axis, i: usize) {
    for span in spans(axis, |cell| cell.alerts.place(i)) {
        let class = match span.value {
            Some(Place::Ready) => continue,
            Some(Place::Acknowledged) => "ack",
            Some(_) => "pause",
            None => "mixed",
        };
        let place = span.value.map_or("several places", names::place);
        let title = format!("ALERT{i}: {place}, {}", span.ticks());
        page.titled(&title, |page| {
            marks::strip(page, class, span.place.x, page.y, span.place.width);
        });
    }
}

/// Where the ping pair is (1,0).
pub fn draw_ping(page: &mut Page, axis: &Axis, i: usize) {
    let some = |cell: &Cell| is_set(&cell.alerts.pings.some, i);
    let level = |cell: &Cell| {
        let all = is_set(&cell.alerts.pings.all, i);
        (all == some(cell)).then_some(all)
    };
    if axis.cells.iter().any(some) {
        outputs::draw_lane(page, axis, &format!("ALERT{i} ping"), level);
    }
}
