//! A class in a row: its state, then ESC_CNT/ACCUM_CNT.
use super::Form;
use crate::names;
use handler::Class;

/// A count in at most three columns, rounded down.
fn short(count: u32) -> String {
    match count {
        0..=999 => count.to_string(),
        1_000..=99_999 => format!("{}k", count / 1_000),
        100_000..=999_999 => format!(".{}M", count / 100_000),
        1_000_000..=99_999_999 => format!("{}M", count / 1_000_000),
        100_000_000..=999_999_999 => format!(".{}G", count / 100_000_000),
        _ => format!("{}G", count / 1_000_000_000),
    }
}

pub fn class(c: &Class, form: Form) -> String {
    let (state, count): (_, fn(u32) -> String) = match form {
        Form::Short => (names::short_state(c.state), short),
        _ => (names::state(c.state), |count| count.to_string()),
    };
    match (c.count, u32::from(c.accum)) {
        (0, 0) => state.to_string(),
        (esc, accum) => format!("{state} {}/{}", count(esc), count(accum)),
    }
}

#[cfg(test)]
mod tests {
    use super::*;

    #[test]
    fn counts_are_short_in_three_columns() {
        for (count, text) in [
            (0, "0"),
            (999, "999"),
            (1_000, "1k"),
            (65_535, "65k"),
            (99_999, "99k"),
            (100_000, ".1M"),
            (999_999, ".9M"),
            (1_000_000, "1M"),
            (99_999_999, "99M"),
            (100_000_000, ".1G"),
            (1_000_000_000, "1G"),
            (u32::MAX, "4G"),
        ] {
            assert_eq!(short(count), text);
        }
    }
}
