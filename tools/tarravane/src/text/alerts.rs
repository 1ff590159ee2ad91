//! The line before the ticks: `alerts N`.
use super::word::{number, shown, split};
use handler::Edition;

fn wanted(edition: Edition) -> String {
    let most = edition.alerts();
    format!("alerts wants a number: 1 to {most}, or another byte for a trace that is refused")
}

/// The word after `alerts`.
fn count(edition: Edition, line: &str) -> Result<&str, String> {
    let all: Vec<&str> = split(line).collect();
    match all[..] {
        ["alerts", count] => Ok(count),
        ["alerts"] => Err(wanted(edition)),
        ["alerts", _, more, ..] => Err(format!("unexpected: {}", shown(more))),
        ["edition", ..] => Err("one edition, and it stands first".to_string()),
        _ => Err(format!(
            "a text begins with alerts N, not with {}",
            shown(all.first().unwrap_or(&"nothing"))
        )),
    }
}

/// N, the number of alerts: any byte, so that every trace has a text. Where N is the first byte of a trace, the mark of
/// another edition is no N.
pub fn parse(edition: Edition, line: &str) -> Result<u8, String> {
    let count = count(edition, line)?;
    let n = number(count)
        .and_then(|n| u8::try_from(n).ok())
        .ok_or_else(|| format!("{}, not {}", wanted(edition), shown(count)))?;
    if edition.mark().is_none() && Edition::of(n) != edition {
        let other = Edition::of(n).name();
        return Err(format!("a first byte of {n} is that of edition {other}"));
    }
    Ok(n)
}

pub fn words(n: u8) -> String {
    format!("alerts {n}")
}

#[cfg(test)]
mod tests {
    use super::*;
    use Edition::{Alerts248, Alerts64, Pings, Wires};

    #[test]
    fn n_is_any_byte() {
        for edition in Edition::ALL {
            for n in 0..253 {
                assert_eq!(parse(edition, &words(n)), Ok(n));
            }
            assert_eq!(parse(edition, " alerts\t0x40 "), Ok(64));
        }
        for edition in [Alerts248, Pings, Wires] {
            for n in 253..=255 {
                assert_eq!(parse(edition, &words(n)), Ok(n));
            }
        }
        for (n, name) in [(253, "wires"), (254, "pings"), (255, "70")] {
            let problem = format!("a first byte of {n} is that of edition {name}");
            assert_eq!(parse(Alerts64, &words(n)), Err(problem));
        }
    }

    #[test]
    fn bad_words_are_told() {
        for (edition, most) in [(Alerts64, 64), (Alerts248, 248), (Pings, 248), (Wires, 248)] {
            let wanted = format!(
                "alerts wants a number: 1 to {most}, or another byte for a trace that is refused"
            );
            for (line, problem) in [
                ("alerts", wanted.clone()),
                ("alerts 256", format!("{wanted}, not 256")),
                ("alerts two", format!("{wanted}, not two")),
                ("alerts 2 3", "unexpected: 3".to_string()),
                (
                    "none",
                    "a text begins with alerts N, not with none".to_string(),
                ),
                (
                    "alert 2",
                    "a text begins with alerts N, not with alert".to_string(),
                ),
                ("edition 24", "one edition, and it stands first".to_string()),
            ] {
                assert_eq!(parse(edition, line), Err(problem));
            }
        }
    }
}
