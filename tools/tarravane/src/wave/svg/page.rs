//! The page: what is drawn so far, and how far down.
use super::axis::Place;
use super::layout::{LEFT, PAPER, SMALL, WIDTH};
use super::style::{DEFINITIONS, STYLE};
use super::xml::{escaped, number};
use std::fmt::Write;

pub struct Page {
    body: String,
    /// Where the next thing goes.
    pub y: f64,
}

impl Page {
    pub fn new(y: f64) -> Page {
        Page {
            body: String::new(),
            y,
        }
    }

    fn add(&mut self, element: std::fmt::Arguments) {
        // A string takes all that is written.
        let _ = self.body.write_fmt(element);
        self.body.push('\n');
    }

    /// What is drawn up to now; `insert` puts more over it, and below what is drawn after it.
    pub fn mark(&self) -> usize {
        self.body.len()
    }

    pub fn insert(&mut self, mark: usize, under: Page) {
        self.body.insert_str(mark, &under.body);
    }

    pub fn rect(&mut self, class: &str, x: f64, y: f64, width: f64, height: f64) {
        let [x, y, w, h] = [x, y, width, height].map(number);
        self.add(format_args!(
            r#"<rect class="{class}" x="{x}" y="{y}" width="{w}" height="{h}"/>"#
        ));
    }

    /// A path, which begins at a place and goes on by `steps` from there.
    pub fn path(&mut self, class: &str, x: f64, y: f64, steps: &str) {
        let [x, y] = [x, y].map(number);
        self.add(format_args!(
            r#"<path class="{class}" d="M{x} {y}{steps}"/>"#
        ));
    }

    pub fn text(&mut self, class: &str, x: f64, y: f64, words: &str) {
        let ([x, y], words) = ([x, y].map(number), escaped(words));
        self.add(format_args!(
            r#"<text class="{class}" x="{x}" y="{y}">{words}</text>"#
        ));
    }

    /// Small text that runs down the page, the first line at the right.
    pub fn lines_down(&mut self, class: &str, place: Place, y: f64, lines: &[String]) {
        let step = place.width / lines.len().max(1) as f64;
        let mut x = place.end() + step / 2.0 - 0.35 * SMALL;
        for line in lines {
            x -= step;
            let ([x, y], words) = ([x, y].map(number), escaped(line));
            self.add(format_args!(
                r#"<text class="{class}" transform="translate({x} {y}) rotate(90)">{words}</text>"#
            ));
        }
    }

    /// The name of a lane that is this high, left of it.
    pub fn lane_name(&mut self, name: &str, height: f64) {
        self.text("lane", LEFT - 6.0, self.y + height / 2.0 + 3.5, name);
    }

    /// A group with a title, which viewers show where the pointer rests.
    pub fn titled(&mut self, title: &str, draw: impl FnOnce(&mut Page)) {
        self.add(format_args!("<g><title>{}</title>", escaped(title)));
        draw(self);
        self.add(format_args!("</g>"));
    }

    /// The whole picture, as wide as the paper or, where it is taller, as high.
    pub fn finished(self, title: &str) -> String {
        let scale = (PAPER.0 / WIDTH).min(PAPER.1 / self.y);
        let [width, height] = [WIDTH * scale, self.y * scale].map(number);
        let [across, down] = [WIDTH, self.y].map(number);
        let (title, body) = (escaped(title), self.body);
        format!(
            r#"<?xml version="1.0" encoding="UTF-8"?>
<svg xmlns="http://www.w3.org/2000/svg" width="{width}mm" height="{height}mm" viewBox="0 0 {across} {down}">
<title>{title}</title>
<style>{STYLE}</style>
{DEFINITIONS}
<rect class="paper" width="{across}" height="{down}"/>
{body}</svg>
"#
        )
    }
}
