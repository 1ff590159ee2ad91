//! The lane of accesses: a mark for each, and its words below it.
use super::super::access::Mark;
use super::super::axis::Axis;
use super::super::cell::Cell;
use super::super::layout::{text_width, LEFT, SMALL};
use super::super::marks::{self, HEIGHT};
use super::super::page::Page;
use crate::summary::words::count;

pub fn draw_marks(page: &mut Page, axis: &Axis) {
    page.lane_name("accesses", HEIGHT);
    page.path(
        "base",
        LEFT,
        page.y + HEIGHT,
        &format!("H{:.1}", axis.end()),
    );
    for (cell, place) in axis.with_places() {
        if let Some(said) = &cell.accesses.one {
            marks::access(page, said.mark, place.middle(), page.y);
        }
    }
    page.y += HEIGHT;
}

fn accesses_in_words(number: u64) -> String {
    match number {
        1 => "1 access".to_string(),
        _ => format!("{number} accesses"),
    }
}

/// What a fold hides, in one line or two.
fn folded(cell: &Cell) -> Vec<String> {
    let (accesses, alerts) = (&cell.accesses, &cell.alerts);
    let inside = [
        (alerts.count, count(alerts.count, "event")),
        (accesses.count, accesses_in_words(accesses.count)),
        (accesses.locks, count(accesses.locks, "lock")),
        (accesses.refused, format!("{} refused", accesses.refused)),
    ];
    let inside = inside.into_iter().filter(|(number, _)| *number > 0);
    let inside: Vec<String> = inside.map(|(_, words)| words).collect();
    let mut lines = vec![format!("{} folded", count(cell.ticks(), "tick"))];
    if !inside.is_empty() {
        lines.push(inside.join(", "));
    }
    lines
}

/// The lines below a cell, and their class.
fn words(cell: &Cell) -> (Vec<String>, &'static str) {
    match &cell.accesses.one {
        _ if cell.is_fold() => (folded(cell), "fold"),
        Some(said) if said.mark == Mark::Refused => (vec![said.words.clone()], "refused"),
        Some(said) => (vec![said.words.clone()], "said"),
        None => (Vec::new(), ""),
    }
}

pub fn draw_words(page: &mut Page, axis: &Axis) {
    let top = page.y + 4.0;
    for (cell, place) in axis.with_places() {
        let (lines, class) = words(cell);
        page.lines_down(class, place, top, &lines);
        let widths = lines.iter().map(|line| text_width(line, SMALL));
        page.y = widths.fold(page.y, |y, width| y.max(top + width));
    }
}
