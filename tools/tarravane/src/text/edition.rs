//! The line before `alerts N`: `edition E`, where E is the edition's name. It may be missing for the newest edition.
use super::word::{number, shown, split};
use handler::Edition;

pub fn is_edition(line: &str) -> bool {
    split(line).next() == Some("edition")
}

fn wanted() -> String {
    let all: Vec<&str> = Edition::ALL.iter().map(|e| e.name()).collect();
    format!("edition wants a name: {}", all.join(", "))
}

pub fn parse(line: &str) -> Result<Edition, String> {
    let mut words = split(line).skip(1);
    let word = words.next().ok_or_else(wanted)?;
    if let Some(more) = words.next() {
        return Err(format!("unexpected: {}", shown(more)));
    }
    // A name that is a number is read as one.
    let same = |name: &str| word == name || number(name).map_or(false, |n| number(word) == Some(n));
    let named = |edition: &Edition| same(edition.name());
    Edition::ALL
        .into_iter()
        .find(named)
        .ok_or_else(|| format!("{}, not {}", wanted(), shown(word)))
}

pub fn words(edition: Edition) -> String {
    format!("edition {}", edition.name())
}

#[cfg(test)]
mod tests {
    use super::*;

    #[test]
    fn an_edition_goes_by_its_name() {
        for edition in Edition::ALL {
            let line = words(edition);
            assert!(is_edition(&line));
            assert_eq!(parse(&line), Ok(edition));
        }
        assert_eq!(parse(" edition\t0x18 "), Ok(Edition::Alerts64));
        assert_eq!(parse("edition pings"), Ok(Edition::Pings));
        assert_eq!(parse("edition wires"), Ok(Edition::Wires));
        assert!(!is_edition("editions 24") && !is_edition(""));
    }

    #[test]
    fn bad_words_are_told() {
        let wanted = "edition wants a name: 24, 70, pings, wires";
        for (line, problem) in [
            ("edition", wanted.to_string()),
            ("edition 25", format!("{wanted}, not 25")),
            ("edition old", format!("{wanted}, not old")),
            ("edition 75", format!("{wanted}, not 75")),
            ("edition Pings", format!("{wanted}, not Pings")),
            ("edition 24 alerts", "unexpected: alerts".to_string()),
        ] {
            assert_eq!(parse(line), Err(problem));
        }
    }
}
