//! The lanes below the time axis: inputs, states, outputs, accesses.
mod accesses;
mod alerts;
mod classes;
mod outputs;
mod pairs;
mod receivers;
mod spans;
mod still;
mod timer;

use super::axis::Axis;
use super::layout::LEFT;
use super::page::Page;
use still::Parted;

/// What is free between groups of lanes.
const BETWEEN: f64 = 7.0;

/// The name of a lane that is this high, and the line on which its marks stand.
fn begin(page: &mut Page, axis: &Axis, name: &str, height: f64) {
    page.lane_name(name, height);
    let end = format!("H{:.1}", axis.end());
    page.path("base", LEFT, page.y + height, &end);
}

/// Lines that lead from the lanes up to the ticks.
fn grid(axis: &Axis, from: f64, to: f64) -> Page {
    let mut page = Page::new(to);
    let starts = axis.places.iter().map(|place| place.x);
    for x in starts.chain([axis.end()]) {
        page.path("grid", x, from, &format!("V{to:.1}"));
    }
    page
}

/// A tear through all lanes at each fold.
fn tears(page: &mut Page, axis: &Axis, from: f64, to: f64) {
    let teeth = ((to - from) / 12.0) as usize;
    let steps = "l3 6l-3 6".repeat(teeth);
    for (_, place) in axis.with_places().filter(|(cell, _)| cell.is_fold()) {
        for class in ["gap", "tear"] {
            page.path(class, place.middle() - 1.5, from, &steps);
        }
    }
}

/// A trace that is cut ends at a line.
fn cut_line(page: &mut Page, axis: &Axis, from: f64, to: f64) {
    page.path("cut", axis.end() + 2.0, from, &format!("V{to:.1}"));
}

/// After a group that has a lane.
fn leave_room(page: &mut Page, lanes: &[usize]) {
    if !lanes.is_empty() {
        page.y += BETWEEN;
    }
}

pub fn draw(page: &mut Page, axis: &Axis, cut: bool) {
    let (under, top) = (page.mark(), page.y);
    alerts::draw(page, axis);
    timer::draw(page, axis);
    let parted = Parted::new(axis);
    classes::draw(page, axis, &parted.classes);
    leave_room(page, &parted.classes);
    outputs::draw_interrupts(page, axis, &parted.interrupts);
    leave_room(page, &parted.interrupts);
    outputs::draw_lines(page, axis, &parted.lines);
    leave_room(page, &parted.lines);
    let still = page.y;
    page.y += parted.height() + BETWEEN;
    accesses::draw_marks(page, axis);
    let bottom = page.y;
    page.insert(under, grid(axis, top, bottom));
    tears(page, axis, top, bottom);
    parted.draw(page, still);
    if cut {
        cut_line(page, axis, top, bottom);
    }
    accesses::draw_words(page, axis);
}
