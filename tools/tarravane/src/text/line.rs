//! A line of a text, without its comment.
use super::word::{shown, split};
use super::{access, hex, sample};
use handler::registers::Naming;
use handler::{Edition, Input};

/// What a line after `alerts` gives.
#[derive(Debug, PartialEq, Eq)]
pub enum Line {
    /// A tick, whose register has the edition's number, and the lines whose receivers answer in it as sound ones do, line 0 at
    /// the lowest bit.
    Tick(Input, u32),
    /// A record as its bytes, well-formed or not.
    Raw(Vec<u8>),
    /// The bytes that follow the last record, too few for another.
    Cut(Vec<u8>),
}

pub fn is_blank(line: &str) -> bool {
    split(line).next().is_none()
}

fn parse_tick(edition: Edition, line: &str) -> Result<Line, String> {
    let mut words = split(line);
    let access = access::parse(edition, &mut words)?;
    let beside = sample::parse(edition, words)?;
    let input = Input {
        access,
        sample: beside.sample,
        answers: beside.answers,
    };
    Ok(Line::Tick(input, beside.sound))
}

fn parse_raw(edition: Edition, bytes: Option<Vec<u8>>) -> Result<Line, String> {
    let length = edition.bytes();
    bytes
        .filter(|bytes| bytes.len() == length)
        .map(Line::Raw)
        .ok_or_else(|| {
            let digits = 2 * length;
            format!("raw wants {digits} hex digits, the {length} bytes of a record")
        })
}

fn parse_cut(edition: Edition, bytes: Option<Vec<u8>>) -> Result<Line, String> {
    let most = edition.bytes() - 1;
    bytes
        .filter(|bytes| (1..=most).contains(&bytes.len()))
        .map(Line::Cut)
        .ok_or_else(|| {
            let digits = 2 * most;
            format!("cut wants 2 to {digits} hex digits, two for each of 1 to {most} bytes")
        })
}

/// What a line after `alerts` gives.
pub fn parse(edition: Edition, line: &str) -> Result<Line, String> {
    let mut words = split(line);
    let taken: fn(Edition, Option<Vec<u8>>) -> Result<Line, String> = match words.next() {
        Some("raw") => parse_raw,
        Some("cut") => parse_cut,
        _ => return parse_tick(edition, line),
    };
    let given = taken(edition, words.next().and_then(hex::parse))?;
    match words.next() {
        None => Ok(given),
        Some(word) => Err(format!("unexpected: {}", shown(word))),
    }
}

/// The line of a tick.
pub fn words(naming: Naming, edition: Edition, input: &Input) -> String {
    access::words(naming, edition, input.access) + &sample::words(input)
}

/// The line of a record that is not well-formed.
pub fn raw_words(record: &[u8]) -> String {
    format!("raw {}", hex::words(record))
}

/// The last line of a text whose trace is cut.
pub fn cut_words(left: &[u8]) -> String {
    format!("cut {}", hex::words(left))
}

#[cfg(test)]
mod tests {
    use super::*;
    use handler::registers::Setting;
    use handler::{Access, Sample};

    #[test]
    fn spaces_and_tabs_part_words() {
        for edition in Edition::ALL {
            let ctrl = edition.registers().class(0, Setting::Ctrl);
            let mut sample = Sample::AT_REST;
            (sample.alerts.pos[0], sample.alerts.neg[0]) = (1 << 63, u64::MAX >> 1);
            let access = Access::Write(ctrl, 14655);
            let input = Input::new(access, sample);
            let line = "write CLASSA_CTRL 0x393f wires 0=10";
            assert_eq!(parse(edition, line), Ok(Line::Tick(input, 0)));
            let odd = format!("\t write  {ctrl}\t14655 wires\t0=10 ");
            assert_eq!(parse(edition, &odd), Ok(Line::Tick(input, 0)));
            assert_eq!(words(Naming::Ours, edition, &input), line);
        }
        assert!(is_blank("") && is_blank(" \t ") && !is_blank(" x"));
    }

    #[test]
    fn words_after_the_access_are_a_sample() {
        for (line, problem) in [
            ("none none", "unexpected: none"),
            ("read 1 2", "unexpected: 2"),
            ("none wires", "wires wants I=PQ or I-J=PQ"),
            (
                "alerts 2",
                "none, read, write, raw or cut is wanted, not alerts",
            ),
        ] {
            for edition in Edition::ALL {
                assert_eq!(parse(edition, line), Err(problem.to_string()));
            }
        }
    }

    #[test]
    fn bytes_that_are_no_record_have_a_line() {
        for edition in Edition::ALL {
            let mut record = vec![0; edition.bytes()];
            (record[0], record[23]) = (0xC5, 0x0F);
            let line = raw_words(&record);
            assert!(line.starts_with("raw c500"));
            assert_eq!(parse(edition, &line), Ok(Line::Raw(record.clone())));
            for length in 1..edition.bytes() {
                let left = &record[..length];
                let line = cut_words(left);
                assert_eq!(parse(edition, &line), Ok(Line::Cut(left.to_vec())));
            }
        }
    }

    const RAW_75: &str = "raw wants 150 hex digits, the 75 bytes of a record";
    const CUT_75: &str = "cut wants 2 to 148 hex digits, two for each of 1 to 74 bytes";

    #[test]
    fn other_lengths_are_told() {
        let zeros = |count: usize| "0".repeat(count);
        for (edition, digits, raw, cut) in [
            (
                Edition::Alerts64,
                48,
                "raw wants 48 hex digits, the 24 bytes of a record",
                "cut wants 2 to 46 hex digits, two for each of 1 to 23 bytes",
            ),
            (
                Edition::Alerts248,
                140,
                "raw wants 140 hex digits, the 70 bytes of a record",
                "cut wants 2 to 138 hex digits, two for each of 1 to 69 bytes",
            ),
            (Edition::Pings, 150, RAW_75, CUT_75),
            (Edition::Wires, 150, RAW_75, CUT_75),
        ] {
            for (line, problem) in [
                ("raw".to_string(), raw),
                (format!("raw {}", zeros(digits - 2)), raw),
                (format!("raw {}", zeros(digits - 1)), raw),
                (format!("raw {}x", zeros(digits - 1)), raw),
                (format!("raw {}", zeros(digits + 2)), raw),
                ("cut".to_string(), cut),
                ("cut 0".to_string(), cut),
                (format!("cut {}", zeros(digits)), cut),
                ("cut 00 00".to_string(), "unexpected: 00"),
                (
                    format!("raw {} wires 0=10", zeros(digits)),
                    "unexpected: wires",
                ),
            ] {
                assert_eq!(parse(edition, &line), Err(problem.to_string()), "{line}");
            }
        }
    }
}
