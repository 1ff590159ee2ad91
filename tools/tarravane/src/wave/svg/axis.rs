//! The time axis: where each cell stands, and its tick number.
use super::cell::Cell;
use super::layout::{text_width, LEFT, RIGHT, SMALL, WIDEST};
use super::page::Page;
use crate::clock::Clock;

#[derive(Clone, Copy)]
pub struct Place {
    pub x: f64,
    pub width: f64,
}

impl Place {
    pub fn middle(self) -> f64 {
        self.x + self.width / 2.0
    }

    pub fn end(self) -> f64 {
        self.x + self.width
    }
}

/// A cell for each place.
pub struct Axis<'a> {
    pub cells: &'a [Cell],
    pub places: Vec<Place>,
    /// The times of ticks, where they are given.
    clock: Option<&'a Clock>,
}

/// The numbers in one line.
fn numbers_in_line(cell: &Cell) -> String {
    match cell.is_fold() {
        true => format!("{}-{}", cell.first, cell.last),
        false => cell.first.to_string(),
    }
}

impl<'a> Axis<'a> {
    pub fn new(cells: &'a [Cell], clock: Option<&'a Clock>) -> Axis<'a> {
        let units: usize = cells.iter().map(Cell::units).sum();
        let unit = ((RIGHT - LEFT) / units.max(1) as f64).min(WIDEST);
        let mut x = LEFT;
        let places = cells.iter().map(|cell| {
            let width = unit * cell.units() as f64;
            x += width;
            Place {
                x: x - width,
                width,
            }
        });
        let places = places.collect();
        Axis {
            cells,
            places,
            clock,
        }
    }

    pub fn with_places(&self) -> impl Iterator<Item = (&Cell, Place)> {
        self.cells.iter().zip(self.places.iter().copied())
    }

    /// Where the last cell ends.
    pub fn end(&self) -> f64 {
        self.places.last().map_or(LEFT, |place| place.end())
    }

    /// The number of a tick, and its time.
    fn number(&self, tick: u64) -> String {
        match self.clock {
            None => tick.to_string(),
            Some(clock) => format!("{tick}  {}", clock.short(tick)),
        }
    }

    /// The number of a tick; of a fold the last one and the first one, as they stand from the right.
    fn numbers(&self, cell: &Cell) -> Vec<String> {
        match cell.is_fold() {
            true => vec![self.number(cell.last), self.number(cell.first)],
            false => vec![self.number(cell.first)],
        }
    }

    /// Have all numbers room beside each other? Times run down.
    fn is_level(&self) -> bool {
        self.clock.is_none()
            && self
                .with_places()
                .all(|(cell, place)| text_width(&numbers_in_line(cell), SMALL) < place.width)
    }

    /// Draws the numbers, level where all have room, else running down.
    pub fn draw(&self, page: &mut Page) {
        let level = self.is_level();
        let all = self.cells.iter().flat_map(|cell| self.numbers(cell));
        let widths = all.map(|number| text_width(&number, SMALL));
        let height = if level {
            SMALL
        } else {
            widths.fold(0.0, f64::max)
        };
        let bottom = page.y + height;
        page.text("lane", LEFT - 6.0, bottom, "tick");
        for (cell, place) in self.with_places() {
            let class = if cell.is_fold() {
                "number fold"
            } else {
                "number"
            };
            match level {
                true => {
                    let class = format!("{class} level");
                    page.text(&class, place.middle(), bottom, &numbers_in_line(cell));
                }
                false => page.lines_down(class, place, bottom, &self.numbers(cell)),
            }
        }
        page.y = bottom + 7.0;
    }
}
