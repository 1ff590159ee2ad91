//! The answer to "what happened", above the picture.
use super::layout::MARGIN;
use super::page::Page;

/// The most lines, so that the picture keeps its room.
const MOST: usize = 12;
/// The most characters of a line.
const WIDE: usize = 155;
const STEP: f64 = 13.0;
/// The width of a space before a line.
const SPACE: f64 = 6.0;

fn indent(line: &str) -> usize {
    line.len() - line.trim_start().len()
}

/// A line as lines that are not too wide, parted after a comma or semicolon; those after the first stand further right.
fn wrapped(line: &str) -> Vec<String> {
    let mut all = vec![String::new()];
    for part in line.split_inclusive([',', ';']) {
        let last = all.len() - 1;
        if all[last].chars().count() + part.chars().count() > WIDE {
            all.push(" ".repeat(indent(line) + 2) + part.trim_start());
        } else {
            all[last].push_str(part);
        }
    }
    all
}

/// As many lines as there is room for; what is left out is told.
fn fitted(lines: &[String]) -> Vec<String> {
    let mut all: Vec<String> = lines.iter().flat_map(|line| wrapped(line)).collect();
    if all.len() > MOST {
        let more = all.len() - (MOST - 1);
        all.truncate(MOST - 1);
        all.push(format!(
            "and {more} more lines: ./tarravane explain --summary has them"
        ));
    }
    all
}

pub fn draw(page: &mut Page, lines: &[String]) {
    for line in fitted(lines) {
        page.y += STEP;
        let x = MARGIN + SPACE * indent(&line) as f64;
        page.text("told", x, page.y, line.trim_start());
    }
}

#[cfg(test)]
mod tests {
    use super::*;

    /// No line is too wide, and the lines are the whole.
    #[test]
    fn long_lines_are_wrapped() {
        let alerts: Vec<String> = (0..248).step_by(2).map(|i| i.to_string()).collect();
        let line = format!("  start at 9 by ALERT{}; not locked", alerts.join(","));
        let lines = wrapped(&line);
        assert!(lines.len() > 2);
        assert!(lines.iter().all(|line| line.len() <= WIDE));
        assert!(lines[1..].iter().all(|line| indent(line) == 4));
        let letters = |text: &str| text.replace(' ', "");
        assert_eq!(letters(&lines.concat()), letters(&line));
        assert_eq!(wrapped("  short, line"), ["  short, line"]);
    }

    #[test]
    fn what_has_no_room_is_counted() {
        let lines: Vec<String> = (0..MOST).map(|i| i.to_string()).collect();
        assert_eq!(fitted(&lines), lines);
        let more = [lines, vec!["more".to_string(); 5]].concat();
        let fitted = fitted(&more);
        assert_eq!(fitted.len(), MOST);
        let last = "and 6 more lines: ./tarravane explain --summary has them";
        assert_eq!(fitted[MOST - 1], last);
    }
}
