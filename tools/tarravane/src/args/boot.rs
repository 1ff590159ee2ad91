//! The words after `boot`.
use super::words::{once, Word, Words};
use super::{number, Asked};
use handler::boot::BOOT_ALERTS;
use handler::{Lifecycle, ALERTS};

#[derive(Debug, PartialEq, Eq)]
pub struct Boot {
    pub lifecycle: Lifecycle,
    /// The alerts of the new handler, 1 to 248.
    pub alerts: usize,
    /// The file that the boot is written to as a trace.
    pub trace: Option<String>,
}

fn lifecycle(word: &str) -> Result<Lifecycle, String> {
    Lifecycle::named(word).ok_or_else(|| {
        let names = Lifecycle::NAMES.map(|(name, _)| name).join(", ");
        format!("no such lifecycle: {word} (there are {names})")
    })
}

fn alerts(word: &str) -> Result<usize, String> {
    match number(word).and_then(|number| usize::try_from(number).ok()) {
        Some(number) if (1..=ALERTS).contains(&number) => Ok(number),
        _ => Err(format!(
            "--alerts wants a number from 1 to {ALERTS}, not {word}"
        )),
    }
}

fn file(word: &str) -> Result<String, String> {
    match word {
        "-" => Err("--trace wants a file: standard output has the table".to_string()),
        _ => Ok(word.to_string()),
    }
}

pub fn parse(words: &[String]) -> Result<Asked<Boot>, String> {
    let (mut named, mut count, mut trace) = (None, None, None);
    let mut words = Words::new("boot", words);
    while let Some(word) = words.take()? {
        match word {
            Word::Option("--help" | "-h") => return Ok(Asked::Help),
            Word::Option("--alerts") => {
                let word = words.value("--alerts wants a word after it")?;
                once(&mut count, alerts(word)?, "boot takes one --alerts")?;
            }
            Word::Option("--trace") => {
                let word = words.value("--trace wants a word after it")?;
                once(&mut trace, file(word)?, "boot takes one --trace")?;
            }
            Word::Option(_) => return words.unknown(),
            Word::Plain(_) if named.is_some() => return Err("boot takes one lifecycle".to_string()),
            Word::Plain(word) => named = Some(lifecycle(word)?),
        }
    }
    let lifecycle = named.ok_or("boot wants a lifecycle")?;
    let alerts = count.unwrap_or(BOOT_ALERTS);
    Ok(Asked::Run(Boot {
        lifecycle,
        alerts,
        trace,
    }))
}

#[cfg(test)]
mod tests {
    use super::super::tests::parsed;
    use super::*;

    #[test]
    fn options_stand_before_or_after_the_lifecycle() {
        let asked = |lifecycle, alerts, trace: Option<&str>| {
            let trace = trace.map(str::to_string);
            Ok(Asked::Run(Boot {
                lifecycle,
                alerts,
                trace,
            }))
        };
        assert_eq!(parsed(parse, "raw"), asked(Lifecycle::RawTest, 58, None));
        assert_eq!(
            parsed(parse, "-- Test"),
            asked(Lifecycle::RawTest, 58, None)
        );
        let line = "--alerts 248 prod_end --trace t";
        assert_eq!(
            parsed(parse, line),
            asked(Lifecycle::ProdEnd, 248, Some("t"))
        );
        let line = "DEV --trace --alerts --alerts 1";
        assert_eq!(
            parsed(parse, line),
            asked(Lifecycle::Dev, 1, Some("--alerts"))
        );
    }

    #[test]
    fn bad_words_are_refused() {
        for (line, why) in [
            ("", "boot wants a lifecycle"),
            ("--", "boot wants a lifecycle"),
            (
                "production",
                "no such lifecycle: production (there are RAW, TEST, PROD, PROD_END, DEV, RMA, SCRAP)",
            ),
            ("PROD DEV", "boot takes one lifecycle"),
            ("PROD --alerts", "--alerts wants a word after it"),
            ("PROD --alerts 0", "--alerts wants a number from 1 to 248, not 0"),
            ("PROD --alerts 249", "--alerts wants a number from 1 to 248, not 249"),
            ("PROD --alerts -1", "--alerts wants a number from 1 to 248, not -1"),
            ("PROD --alerts +60", "--alerts wants a number from 1 to 248, not +60"),
            ("PROD --alerts many", "--alerts wants a number from 1 to 248, not many"),
            ("PROD --alerts 58 --alerts 58", "boot takes one --alerts"),
            ("PROD --trace", "--trace wants a word after it"),
            ("PROD --trace -", "--trace wants a file: standard output has the table"),
            ("PROD --trace a --trace b", "boot takes one --trace"),
            ("PROD -o t", "boot has no option -o"),
        ] {
            assert_eq!(parsed(parse, line), Err(why.to_string()), "{line}");
        }
    }
}
