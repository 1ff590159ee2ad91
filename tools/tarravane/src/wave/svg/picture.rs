//! The whole picture: heading, caption, time axis, lanes, legend.
use super::axis::Axis;
use super::caption;
use super::cell::Cell;
use super::lanes;
use super::layout::{MARGIN, RIGHT};
use super::legend;
use super::page::Page;
use crate::clock::Clock;

/// What is drawn of a trace.
pub struct Drawn {
    pub name: String,
    pub title: String,
    /// What made the picture.
    pub made: String,
    pub cells: Vec<Cell>,
    /// What happened.
    pub told: Vec<String>,
    /// The last tick that was read.
    pub ticks: u64,
    pub cut: Option<String>,
    /// The times of ticks, where they are given.
    pub clock: Option<Clock>,
}

/// The most characters of a name that are shown.
const NAME: usize = 50;

fn heading(page: &mut Page, name: &str) {
    let mut shown: String = name.chars().take(NAME).collect();
    if shown.len() < name.len() {
        shown.push_str("..");
    }
    page.text("title", MARGIN, page.y, &shown);
}

/// What kind of trace it is, at the right of its name.
fn about(page: &mut Page, drawn: &Drawn) {
    let words = format!("{}; {}", drawn.title, ticks(drawn));
    page.text("about", RIGHT, page.y, &words);
}

/// What made the picture, at the right of its last line.
fn foot(page: &mut Page, made: &str) {
    page.text("about", RIGHT, page.y - 9.0, made);
}

fn line(page: &mut Page, class: &str, words: &str) {
    page.y += 17.0;
    page.text(class, MARGIN, page.y, words);
}

/// Which ticks are shown, and which the caption tells of.
fn ticks(drawn: &Drawn) -> String {
    let told = match drawn.ticks {
        0 => "no tick".to_string(),
        ticks => format!("ticks 1 to {ticks}"),
    };
    match (drawn.cells.first(), drawn.cells.last()) {
        (Some(first), Some(last)) if first.first > 1 => {
            format!("{told}, shown from {} to {}", first.first, last.last)
        }
        (None, _) if drawn.ticks > 0 => format!("{told}, none shown"),
        _ => told,
    }
}

/// What the numbers of the caption are.
fn told_by(drawn: &Drawn) -> String {
    let clock = drawn.clock.as_ref();
    let clock = clock.map(|clock| format!("; {}", clock.words()));
    format!(
        "What happened (numbers are ticks{})",
        clock.unwrap_or_default()
    )
}

pub fn draw(drawn: &Drawn) -> String {
    let mut page = Page::new(22.0);
    heading(&mut page, &drawn.name);
    about(&mut page, drawn);
    line(&mut page, "head", &told_by(drawn));
    caption::draw(&mut page, &drawn.told);
    if let Some(cut) = &drawn.cut {
        line(&mut page, "bad", cut);
    }
    page.y += 14.0;
    if !drawn.cells.is_empty() {
        let axis = Axis::new(&drawn.cells, drawn.clock.as_ref());
        axis.draw(&mut page);
        lanes::draw(&mut page, &axis, drawn.cut.is_some());
        let handshake = drawn.cells.iter().any(Cell::has_handshake);
        let timer = drawn.cells.iter().any(|cell| cell.timer.on);
        let wrong = drawn.cells.iter().any(Cell::has_wrong_answer);
        legend::draw(&mut page, handshake, timer, wrong);
    }
    foot(&mut page, &drawn.made);
    page.finished(&format!("{}: {}", drawn.name, drawn.told.join("; ")))
}

/// The picture of a trace without ticks, which says why.
pub fn draw_refused(name: &str, why: &str, made: &str) -> String {
    let mut page = Page::new(22.0);
    heading(&mut page, name);
    line(&mut page, "bad", why);
    page.y += 12.0;
    foot(&mut page, made);
    page.finished(&format!("{name}: {why}"))
}
