//! Words that the parts of a summary share.
use crate::facts::events::Source;
use crate::runs::parts;
use crate::style::Style;

/// So many of a thing: `no start`, `1 start`, `2 starts`.
pub fn count(number: u64, thing: &str) -> String {
    match number {
        0 => format!("no {thing}"),
        1 => format!("1 {thing}"),
        _ => format!("{number} {thing}s"),
    }
}

/// Rising numbers, three neighbours or more as a range: `0,1,4-9`.
pub fn ranges(numbers: &[usize]) -> String {
    let runs = parts(numbers, |a, b| a + 1 == *b);
    let words = runs.iter().map(|run| match **run {
        [first, _, .., last] if run.len() > 2 => format!("{first}-{last}"),
        _ => run
            .iter()
            .map(usize::to_string)
            .collect::<Vec<_>>()
            .join(","),
    });
    words.collect::<Vec<_>>().join(",")
}

/// An alert, with its name where that is asked for, or a local alert.
pub fn source_name(style: &Style, source: Source) -> String {
    match source {
        Source::Alert(i) => style.alert(i),
        Source::Local(j) => format!("LOC_ALERT{j}"),
    }
}

/// The sources of a trigger: `ALERT0,1,4-9 LOC_ALERT2`.
pub fn sources(style: &Style, all: &[Source]) -> String {
    if style.names {
        let one = |source: &Source| source_name(style, *source);
        return all.iter().map(one).collect::<Vec<_>>().join(", ");
    }
    let (mut alerts, mut locals) = (Vec::new(), Vec::new());
    for source in all {
        match source {
            Source::Alert(i) => alerts.push(*i),
            Source::Local(j) => locals.push(*j),
        }
    }
    let named = [("ALERT", alerts), ("LOC_ALERT", locals)];
    let words = named.iter().filter(|(_, numbers)| !numbers.is_empty());
    let words: Vec<String> = words
        .map(|(name, numbers)| format!("{name}{}", ranges(numbers)))
        .collect();
    words.join(" ")
}

#[cfg(test)]
mod tests {
    use super::*;

    #[test]
    fn numbers_of_things() {
        assert_eq!(count(0, "start"), "no start");
        assert_eq!(count(1, "start"), "1 start");
        assert_eq!(count(2, "start"), "2 starts");
    }

    #[test]
    fn neighbours_are_a_range() {
        let sources = |all: &[Source]| super::sources(&Style::PLAIN, all);
        let alerts = |numbers: &[usize]| -> Vec<Source> {
            numbers.iter().map(|i| Source::Alert(*i)).collect()
        };
        assert_eq!(sources(&alerts(&[5])), "ALERT5");
        assert_eq!(sources(&alerts(&[0, 1, 4, 5, 6, 63])), "ALERT0,1,4-6,63");
        assert_eq!(sources(&[Source::Local(2)]), "LOC_ALERT2");
        let both = [alerts(&[0, 1, 2]), vec![Source::Local(2)]].concat();
        assert_eq!(sources(&both), "ALERT0-2 LOC_ALERT2");
    }
}
