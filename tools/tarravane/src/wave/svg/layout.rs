//! Where things stand on the page, in units of 0.277 mm: 1000 of them are the width that A4 in landscape has between margins
//! of 10 mm.

/// The width of the page.
pub const WIDTH: f64 = 1000.0;
/// The width and the height that the paper has, in mm.
pub const PAPER: (f64, f64) = (277.0, 190.0);

/// What stays free at the left and right.
pub const MARGIN: f64 = 12.0;
/// Where the lanes begin; left of it stand their names.
pub const LEFT: f64 = 108.0;
/// Where they end at most.
pub const RIGHT: f64 = WIDTH - MARGIN;

/// The width of one tick at most.
pub const WIDEST: f64 = 44.0;

/// The size of small text: numbers, accesses, the legend.
pub const SMALL: f64 = 8.0;

/// The width of text in a font of this size, rather too much than too little.
pub fn text_width(text: &str, size: f64) -> f64 {
    0.63 * size * text.chars().count() as f64
}
