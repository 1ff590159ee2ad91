//! Neighbouring cells in which a lane has one value.
use super::super::axis::{Axis, Place};
use super::super::cell::Cell;

pub struct Span<T> {
    /// None where a fold hides that it changed.
    pub value: Option<T>,
    pub first: u64,
    pub last: u64,
    pub place: Place,
    /// The widest part without a fold: room for words.
    pub room: Place,
    /// The part without a fold at its end.
    open: Place,
}

impl<T> Span<T> {
    /// A span that begins with this cell and has none yet.
    fn new(value: Option<T>, cell: &Cell, x: f64) -> Span<T> {
        let place = Place { x, width: 0.0 };
        Span {
            value,
            first: cell.first,
            last: cell.last,
            place,
            room: place,
            open: place,
        }
    }

    /// Its ticks in words.
    pub fn ticks(&self) -> String {
        match self.first == self.last {
            true => format!("tick {}", self.first),
            false => format!("ticks {} to {}", self.first, self.last),
        }
    }

    fn add(&mut self, cell: &Cell, place: Place) {
        self.last = cell.last;
        self.place.width += place.width;
        if cell.is_fold() {
            self.open = Place {
                x: place.end(),
                width: 0.0,
            };
            return;
        }
        self.open.width += place.width;
        if self.open.width > self.room.width {
            self.room = self.open;
        }
    }
}

/// `of`: the value in a cell; none where a fold hides that it changed.
pub fn spans<T: PartialEq>(axis: &Axis, of: impl Fn(&Cell) -> Option<T>) -> Vec<Span<T>> {
    let mut all: Vec<Span<T>> = Vec::new();
    for (cell, place) in axis.with_places() {
        let value = of(cell);
        if all.last().map_or(true, |span| span.value != value) {
            all.push(Span::new(value, cell, place.x));
        }
        if let Some(span) = all.last_mut() {
            span.add(cell, place);
        }
    }
    all
}
