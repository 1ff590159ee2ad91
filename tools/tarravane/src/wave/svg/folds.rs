//! The cells of a picture. Long calm runs are folded at once; where there are still too many cells, more runs are, what matters
//! least and saves most first. Memory is bounded, however long the trace.
use super::cell::Cell;
use super::weight::Weight;
use crate::runs::parts;
use std::cmp::Reverse;
use std::ops::Range;

/// A calm run of so many ticks is always folded.
const LONG: u64 = 12;
/// The units of width that there is room for.
const MOST: usize = 80;
/// The most cells that are held while a trace is read: more are folded to half as many.
const HELD: usize = 4096;

#[derive(Default)]
pub struct Folds {
    cells: Vec<Cell>,
}

fn units(cells: &[Cell]) -> usize {
    cells.iter().map(Cell::units).sum()
}

/// All of them as one cell.
fn join(cells: impl Iterator<Item = Cell>) -> Option<Cell> {
    cells.reduce(Cell::joined)
}

/// The runs of cells of at most this weight, as long as can be, that are worth a fold: it saves two units at least.
fn runs(cells: &[Cell], weight: Weight) -> Vec<Range<usize>> {
    let (mut all, mut start) = (Vec::new(), 0);
    for run in parts(cells, |a, b| (a.weight <= weight) == (b.weight <= weight)) {
        if run[0].weight <= weight && units(run) >= 4 {
            all.push(start..start + run.len());
        }
        start += run.len();
    }
    all
}

/// Makes one cell of each run; the runs rise.
fn fold(cells: Vec<Cell>, runs: &[Range<usize>]) -> Vec<Cell> {
    let mut from = cells.into_iter();
    let (mut all, mut taken) = (Vec::new(), 0);
    for run in runs {
        all.extend(from.by_ref().take(run.start - taken));
        all.extend(join(from.by_ref().take(run.len())));
        taken = run.end;
    }
    all.extend(from);
    all
}

/// Folds runs of at most this weight, those first that save most, until there is room.
fn fold_to(cells: Vec<Cell>, weight: Weight, most: usize) -> Vec<Cell> {
    let mut over = units(&cells).saturating_sub(most);
    let mut runs = runs(&cells, weight);
    runs.sort_by_key(|run| Reverse(units(&cells[run.clone()])));
    runs.retain(|run| {
        let taken = over > 0;
        over = over.saturating_sub(units(&cells[run.clone()]) - 2);
        taken
    });
    runs.sort_by_key(|run| run.start);
    fold(cells, &runs)
}

/// How many cells from this end on have room.
fn fitting<'a>(cells: impl Iterator<Item = &'a Cell>, room: usize) -> usize {
    let mut left = room;
    cells
        .take_while(|cell| {
            let fits = cell.units() <= left;
            left = left.saturating_sub(cell.units());
            fits
        })
        .count()
}

/// Keeps the first cells and, in half as much room, the last ones.
fn fold_middle(cells: Vec<Cell>, most: usize) -> Vec<Cell> {
    let last = (most - 2) / 3;
    let head = fitting(cells.iter(), most - 2 - last);
    let tail = fitting(cells.iter().rev(), last).min(cells.len() - head);
    let middle = head..cells.len() - tail;
    fold(cells, &[middle])
}

/// At most so many units.
fn fit(mut cells: Vec<Cell>, most: usize) -> Vec<Cell> {
    for weight in Weight::FOLDED {
        cells = fold_to(cells, weight, most);
    }
    match units(&cells) > most {
        true => fold_middle(cells, most),
        false => cells,
    }
}

impl Folds {
    pub fn push(&mut self, cell: Cell) {
        self.cells.push(cell);
        self.fold_calm_end();
        if self.cells.len() > HELD {
            self.cells = fit(std::mem::take(&mut self.cells), HELD / 2);
        }
    }

    /// Folds the calm run at the end, where it is long.
    fn fold_calm_end(&mut self) {
        let calm = |cell: &&Cell| cell.weight == Weight::Calm;
        let run = self.cells.iter().rev().take_while(calm);
        let ticks: u64 = run.clone().map(Cell::ticks).sum();
        if ticks >= LONG {
            let start = self.cells.len() - run.count();
            let joined = join(self.cells.drain(start..));
            self.cells.extend(joined);
        }
    }

    /// The cells, as many as there is room for.
    pub fn fitted(self) -> Vec<Cell> {
        fit(self.cells, MOST)
    }
}
