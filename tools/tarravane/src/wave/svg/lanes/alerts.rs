//! A lane for each alert that rose or broke, and for each local alert that occurred. The first to do so have lanes of their
//! own, with a strip that tells where the receiver stands; all others share one.
use super::super::axis::{Axis, Place};
use super::super::cell::Cell;
use super::super::marks::{self, HEIGHT};
use super::super::page::Page;
use super::{begin, receivers, BETWEEN};
use crate::alert_bits::{self, put, AlertBits};
use handler::{LOCALS, WORDS};
use std::array::from_fn;

/// The most alerts with a lane of their own.
const MOST: usize = 8;

const STEP: f64 = 14.0;

/// The first alerts that rose or broke, and all others that did.
fn chosen(axis: &Axis) -> (AlertBits, AlertBits) {
    let (mut chosen, mut all) = ([0; WORDS], [0; WORDS]);
    for moved in axis.cells.iter().map(|cell| cell.alerts.moved()) {
        for i in alert_bits::alerts(moved) {
            put(&mut all, i, true);
            if (alert_bits::count(chosen) as usize) < MOST {
                put(&mut chosen, i, true);
            }
        }
    }
    let others = from_fn(|word| all[word] & !chosen[word]);
    (chosen, others)
}

fn meets(bits: &AlertBits, of: &AlertBits) -> bool {
    bits.iter().zip(of).any(|(a, b)| a & b != 0)
}

/// The mark of an event; in a fold it stands left of the tear.
fn event(page: &mut Page, class: &str, cell: &Cell, place: Place) {
    let x = match cell.is_fold() {
        true => place.x + place.width / 4.0,
        false => place.middle(),
    };
    marks::event(page, class, x, page.y);
}

/// What the alerts of `of` do in a cell.
fn draw_cell(page: &mut Page, cell: &Cell, place: Place, of: &AlertBits) {
    let alerts = &cell.alerts;
    let bar = |page: &mut Page, class| {
        page.rect(class, place.x, page.y + 3.0, place.width, HEIGHT - 3.0);
    };
    match () {
        _ if meets(&alerts.raised.all, of) => bar(page, "raised"),
        _ if meets(&alerts.raised.some, of) => bar(page, "mixed"),
        _ => {}
    }
    if meets(&alerts.broken.some, of) {
        bar(page, "broken");
    }
    match () {
        _ if meets(&alerts.events, of) => event(page, "event", cell, place),
        _ if meets(&alerts.disabled, of) => event(page, "disabled", cell, place),
        _ => {}
    }
}

fn lane(page: &mut Page, axis: &Axis, name: &str, of: &AlertBits) {
    begin(page, axis, name, HEIGHT);
    for (cell, place) in axis.with_places() {
        draw_cell(page, cell, place, of);
    }
    page.y += STEP;
}

fn local_lane(page: &mut Page, axis: &Axis, j: usize) {
    begin(page, axis, &format!("LOC_ALERT{j}"), HEIGHT);
    for (cell, place) in axis.with_places() {
        if cell.alerts.locals[j] {
            event(page, "event", cell, place);
        }
    }
    page.y += STEP;
}

pub fn draw(page: &mut Page, axis: &Axis) {
    let top = page.y;
    let (chosen, others) = chosen(axis);
    for i in alert_bits::alerts(chosen) {
        let mut one = [0; WORDS];
        put(&mut one, i, true);
        receivers::draw_strip(page, axis, i);
        lane(page, axis, &format!("ALERT{i}"), &one);
        receivers::draw_ping(page, axis, i);
    }
    match alert_bits::count(others) {
        0 => {}
        1 => lane(page, axis, "1 more alert", &others),
        more => lane(page, axis, &format!("{more} more alerts"), &others),
    }
    let occurs = |j: &usize| axis.cells.iter().any(|cell| cell.alerts.locals[*j]);
    (0..LOCALS)
        .filter(occurs)
        .for_each(|j| local_lane(page, axis, j));
    if page.y > top {
        page.y += BETWEEN;
    }
}
