//! docs/PAPERS.md, as the tests read it.
use super::repository;
use std::fs;

pub fn page() -> String {
    fs::read_to_string(repository("docs/PAPERS.md")).expect("the page")
}

/// What stands below a heading, up to the next one of its kind.
pub fn section(heading: &str) -> String {
    let page = page();
    let start = format!("\n## {heading}\n");
    let (_, rest) = page.split_once(&start).expect(heading);
    rest.split("\n## ").next().expect("a section").to_string()
}

/// The page without its blocks between fences.
pub fn prose() -> String {
    let page = page();
    page.split("```").step_by(2).collect::<Vec<_>>().join("\n")
}

/// The words between backticks, each in one line.
pub fn cited() -> Vec<String> {
    let in_line = |words: &str| words.split_whitespace().collect::<Vec<_>>().join(" ");
    prose().split('`').skip(1).step_by(2).map(in_line).collect()
}

/// A row: its number, and what it says.
pub fn rows() -> Vec<(String, String)> {
    let row = |part: &str| {
        let (number, words) = part.split_once("**").expect("a number");
        let words = words.split("\n\n").next().expect("words");
        (number.to_string(), words.to_string())
    };
    let is_row = |part: &&str| part.starts_with(|c: char| c.is_ascii_digit());
    let page = page();
    let parts = page.split("\n- **").skip(1);
    parts.filter(is_row).map(row).collect()
}
