//! A lane for each interrupt and each line, and for what else is on or off: where it is on.
use super::super::axis::Axis;
use super::super::cell::Cell;
use super::super::page::Page;
use super::spans::spans;
use super::{begin, pairs};
use handler::registers::LETTERS;

const HEIGHT: f64 = 10.0;
const STEP: f64 = 14.0;

pub fn draw_lane(page: &mut Page, axis: &Axis, name: &str, of: impl Fn(&Cell) -> Option<bool>) {
    begin(page, axis, name, HEIGHT);
    for span in spans(axis, of) {
        let (class, words) = match span.value {
            Some(true) => ("high", "on"),
            None => ("mixed", "on and off"),
            Some(false) => continue,
        };
        let title = format!("{name}: {words}, {}", span.ticks());
        page.titled(&title, |page| {
            page.rect(class, span.place.x, page.y, span.place.width, HEIGHT);
        });
    }
    page.y += STEP;
}

/// Draws the interrupts of these classes.
pub fn draw_interrupts(page: &mut Page, axis: &Axis, classes: &[usize]) {
    for &k in classes {
        let name = format!("interrupt {}", LETTERS[k]);
        draw_lane(page, axis, &name, |cell| cell.interrupts[k].value());
    }
}

/// Draws these lines.
pub fn draw_lines(page: &mut Page, axis: &Axis, lines: &[usize]) {
    for &e in lines {
        let name = format!("line {e}");
        draw_lane(page, axis, &name, |cell| cell.lines[e].value());
        pairs::draw(page, axis, e);
    }
}
