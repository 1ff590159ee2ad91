//! The marks of events and accesses, which lanes and legend share. Each stands around x, below y.
use super::access::Mark;
use super::page::Page;

/// The height of a mark.
pub const HEIGHT: f64 = 10.0;

/// `class`: event or disabled.
pub fn event(page: &mut Page, class: &str, x: f64, y: f64) {
    page.path(class, x - 4.5, y + HEIGHT, "l4.5 -9l4.5 9z");
}

/// `class`: ack, pause or mixed.
pub fn strip(page: &mut Page, class: &str, x: f64, y: f64, width: f64) {
    page.rect(class, x, y, width, 2.5);
}

pub fn access(page: &mut Page, mark: Mark, x: f64, y: f64) {
    match mark {
        Mark::Read => page.path("read", x, y + 5.0, "v5"),
        Mark::Write => page.path("write", x, y, "v10"),
        Mark::Staged => page.path("staged", x - 1.5, y + 0.5, "h3v9h-3z"),
        Mark::Refused => page.path("cross", x - 4.0, y + 1.0, "l8 8m0 -8l-8 8"),
    }
}
