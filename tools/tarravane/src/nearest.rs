//! The names of registers that are nearest to a misspelt one.
use handler::registers::Naming;
use handler::Edition;

/// The most names that are given.
const MOST: usize = 3;

/// How many letters must be put in, left out or changed to make one of the other.
fn distance(one: &str, other: &str) -> usize {
    let other: Vec<char> = other.chars().collect();
    let mut row: Vec<usize> = (0..=other.len()).collect();
    for (i, c) in one.chars().enumerate() {
        let mut corner = i;
        row[0] = i + 1;
        for (j, d) in other.iter().enumerate() {
            let changed = corner + usize::from(c != *d);
            corner = row[j + 1];
            row[j + 1] = changed.min(row[j] + 1).min(corner + 1);
        }
    }
    row[other.len()]
}

/// The nearest names of the edition, ours before the papers', whatever the case of the letters; none where none is near.
pub fn nearest(edition: Edition, word: &str) -> Vec<String> {
    let (word, map) = (word.to_uppercase(), edition.registers());
    let most = word.chars().count() / 3;
    let names = |naming: Naming| {
        let registers = (0..map.end()).filter_map(|number| map.register(number));
        registers.map(move |register| naming.name(register))
    };
    let all = names(Naming::Ours).chain(names(Naming::Papers));
    let near = |name: String| Some((distance(&word, &name), name)).filter(|(far, _)| *far <= most);
    let mut all: Vec<(usize, String)> = all.filter_map(near).collect();
    all.sort_by_key(|(far, _)| *far);
    let least = all.first().map(|(far, _)| *far);
    let all = all.into_iter().filter(|(far, _)| Some(*far) == least);
    let mut names: Vec<String> = all.map(|(_, name)| name).collect();
    names.dedup();
    names.truncate(MOST);
    names
}

#[cfg(test)]
mod tests {
    use super::*;

    #[test]
    fn letters_are_counted() {
        for (one, other, far) in [
            ("", "", 0),
            ("CTRL", "CTRL", 0),
            ("CTL", "CTRL", 1),
            ("CTRL", "CTL", 1),
            ("CTRL", "CTRK", 1),
            ("ABC", "", 3),
            ("KITTEN", "SITTING", 3),
        ] {
            assert_eq!(distance(one, other), far, "{one} {other}");
        }
    }

    #[test]
    fn the_nearest_are_given() {
        let newest = |word| nearest(Edition::NEWEST, word);
        assert_eq!(newest("CLASSA_CTL"), ["CLASSA_CTRL"]);
        assert_eq!(newest("classa_ctrl"), ["CLASSA_CTRL"]);
        assert_eq!(
            newest("CLASS_CTRL"),
            ["CLASSA_CTRL", "CLASSB_CTRL", "CLASSC_CTRL"]
        );
        let both = ["ALERT12_EN", "ALERT12_CAUSE"];
        assert_eq!(newest("ALERT12_ENABLE"), both);
        assert_eq!(newest("PING_TIMOUT_CYC"), ["PING_TIMEOUT_CYC"]);
        assert!(newest("something else").is_empty());
        assert_eq!(nearest(Edition::Alerts64, "ALERT64_EN").len(), 3);
    }
}
