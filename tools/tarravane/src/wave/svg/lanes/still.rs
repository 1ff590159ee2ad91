//! Classes that are Idle, interrupts and lines that are off in all ticks: one line for all of them together.
use super::super::axis::Axis;
use super::super::cell::Cell;
use super::super::layout::LEFT;
use super::super::page::Page;
use crate::facts::starts::IDLE;
use handler::registers::LETTERS;
use handler::{CLASSES, LINES};

const HEIGHT: f64 = 10.0;
const STEP: f64 = 14.0;

/// Which of the classes, interrupts and lines move, and which do not.
pub struct Parted {
    pub classes: Vec<usize>,
    pub interrupts: Vec<usize>,
    pub lines: Vec<usize>,
    still: Vec<String>,
}

/// Those of `number` that move; the others are told of by their names, and what they are.
fn part(
    number: usize,
    moves: impl Fn(usize) -> bool,
    name: (&str, &str, &str),
    of: impl Fn(usize) -> String,
    still: &mut Vec<String>,
) -> Vec<usize> {
    let (moving, rest): (Vec<usize>, Vec<usize>) = (0..number).partition(|at| moves(*at));
    let names: Vec<String> = rest.into_iter().map(of).collect();
    let (one, many, what) = name;
    match names.len() {
        0 => {}
        1 => still.push(format!("{one} {}: {what}", names[0])),
        _ => still.push(format!("{many} {}: {what}", names.join(", "))),
    }
    moving
}

impl Parted {
    pub fn new(axis: &Axis) -> Parted {
        let any = |of: &dyn Fn(&Cell) -> bool| axis.cells.iter().any(of);
        let letter = |k: usize| LETTERS[k].to_string();
        let mut still = Vec::new();
        let class = |k: usize| any(&|cell| cell.states[k].value() != Some(IDLE));
        let classes = part(
            CLASSES,
            class,
            ("class", "classes", "Idle"),
            letter,
            &mut still,
        );
        let interrupt = |k: usize| any(&|cell| cell.interrupts[k].value() != Some(false));
        let name = ("interrupt", "interrupts", "off");
        let interrupts = part(CLASSES, interrupt, name, letter, &mut still);
        let line =
            |e: usize| any(&|cell| cell.lines[e].value() != Some(false) || cell.pairs[e].moves);
        let lines = part(
            LINES,
            line,
            ("line", "lines", "off"),
            |e| e.to_string(),
            &mut still,
        );
        Parted {
            classes,
            interrupts,
            lines,
            still,
        }
    }

    /// The height that the line takes.
    pub fn height(&self) -> f64 {
        match self.still.is_empty() {
            true => 0.0,
            false => STEP,
        }
    }

    /// What does not move, in one line at this height; over tears, so that it can be read.
    pub fn draw(&self, page: &mut Page, y: f64) {
        if !self.still.is_empty() {
            page.text("lane", LEFT - 6.0, y + HEIGHT / 2.0 + 3.5, "all the time");
            page.text("still", LEFT, y + HEIGHT - 1.5, &self.still.join("; "));
        }
    }
}
