//! What a trace begins with: the mark of its edition, where that has one, and N, the number of alerts.
use crate::source::filled;
use handler::{Edition, Handler};
use std::io::Read;

#[derive(Clone, Copy, Debug, PartialEq, Eq)]
pub struct Start {
    pub edition: Edition,
    /// Nothing where the trace ends before it.
    pub n: Option<u8>,
}

fn byte(from: &mut impl Read, name: &str) -> Result<Option<u8>, String> {
    let mut byte = [0];
    let have = filled(from, &mut byte, name)?;
    Ok((have == 1).then_some(byte[0]))
}

impl Start {
    /// No bytes at all: the start of an edition without a mark.
    pub const EMPTY: Start = Start {
        edition: Edition::Alerts64,
        n: None,
    };

    pub fn read(from: &mut impl Read, name: &str) -> Result<Start, String> {
        let first = match byte(from, name)? {
            Some(first) => first,
            None => return Ok(Start::EMPTY),
        };
        let edition = Edition::of(first);
        let n = match edition.mark() {
            Some(_) => byte(from, name)?,
            None => Some(first),
        };
        Ok(Start { edition, n })
    }

    pub fn bytes(self) -> Vec<u8> {
        self.edition.mark().into_iter().chain(self.n).collect()
    }

    /// The handler that N asks for, or why it is refused. The library judges both N and how many alerts the edition takes: a
    /// batch of no bytes gets 7 where they are too many.
    pub fn made(self) -> Result<Handler, String> {
        let n = self.n.ok_or_else(|| self.missing())?;
        let (handler, answer) = Handler::new(usize::from(n));
        let (_, taken) = handler.batch(self.edition, &[], &mut []);
        match answer.value().and(taken.value()) {
            Ok(_) => Ok(handler),
            Err(_) => Err(format!(
                "the trace asks for {n} alerts: records of {} bytes are for 1 to {}",
                self.edition.bytes(),
                self.edition.alerts()
            )),
        }
    }

    fn missing(self) -> String {
        match self.edition.mark() {
            None => "the trace is empty: it begins with the number of alerts".to_string(),
            Some(mark) => format!("the trace ends after {mark}: the number of alerts comes next"),
        }
    }

    /// How many whole records a trace of so many bytes has.
    pub fn records(self, bytes: u64) -> u64 {
        let start = self.bytes().len() as u64;
        bytes.saturating_sub(start) / self.edition.bytes() as u64
    }
}

#[cfg(test)]
mod tests {
    use super::*;

    /// What is read gives the same bytes, and no other byte is taken.
    #[test]
    fn every_start_goes_both_ways() {
        let marks = [253, 254, 255];
        let mut all = vec![vec![]];
        all.extend((0..=255).map(|n| vec![n]));
        all.extend((0..=255).flat_map(|n| marks.map(|mark| vec![mark, n])));
        for bytes in all {
            let more = [&bytes[..], &[9; 3]].concat();
            let whole = match bytes[..] {
                [] => false,
                [n] => !marks.contains(&n),
                _ => true,
            };
            let mut from = if whole { &more[..] } else { &bytes[..] };
            let start = Start::read(&mut from, "t").expect("it is read");
            assert_eq!(start.bytes(), bytes);
            assert_eq!(from.len(), if whole { 3 } else { 0 });
            let edition = match bytes.first() {
                Some(253) => Edition::Wires,
                Some(254) => Edition::Pings,
                Some(255) => Edition::Alerts248,
                _ => Edition::Alerts64,
            };
            assert_eq!(start.edition, edition);
        }
    }

    #[test]
    fn a_handler_is_made_as_the_edition_says() {
        for edition in Edition::ALL {
            for n in 0..=255 {
                let made = Start {
                    edition,
                    n: Some(n),
                }
                .made();
                let good = (1..=edition.alerts()).contains(&usize::from(n));
                assert_eq!(made.is_ok(), good, "{edition:?} {n}");
            }
        }
    }

    #[test]
    fn the_reason_names_the_edition() {
        let why = |edition, n| Start { edition, n }.made().expect_err("it is refused");
        for (edition, n, wanted) in [
            (
                Edition::Alerts64,
                Some(65),
                "the trace asks for 65 alerts: records of 24 bytes are for 1 to 64",
            ),
            (
                Edition::Alerts248,
                Some(249),
                "the trace asks for 249 alerts: records of 70 bytes are for 1 to 248",
            ),
            (
                Edition::Pings,
                Some(0),
                "the trace asks for 0 alerts: records of 75 bytes are for 1 to 248",
            ),
            (
                Edition::Alerts64,
                None,
                "the trace is empty: it begins with the number of alerts",
            ),
            (
                Edition::Alerts248,
                None,
                "the trace ends after 255: the number of alerts comes next",
            ),
            (
                Edition::Pings,
                None,
                "the trace ends after 254: the number of alerts comes next",
            ),
        ] {
            assert_eq!(why(edition, n), wanted);
        }
    }

    #[test]
    fn a_missing_n_is_told_by_each_mark() {
        for edition in Edition::ALL {
            let why = Start { edition, n: None }
                .made()
                .expect_err("it is refused");
            let wanted = match edition.mark() {
                Some(mark) => format!("the trace ends after {mark}: "),
                None => "the trace is empty: ".to_string(),
            };
            assert!(why.starts_with(&wanted), "{why}");
        }
    }

    #[test]
    fn whole_records_are_counted() {
        let start = |edition| Start {
            edition,
            n: Some(1),
        };
        assert_eq!(Start::EMPTY.records(0), 0);
        for (bytes, records) in [(0, 0), (1, 0), (24, 0), (25, 1), (48, 1), (49, 2)] {
            assert_eq!(start(Edition::Alerts64).records(bytes), records);
        }
        for (bytes, records) in [(1, 0), (2, 0), (71, 0), (72, 1), (141, 1), (142, 2)] {
            assert_eq!(start(Edition::Alerts248).records(bytes), records);
        }
        for (bytes, records) in [(1, 0), (2, 0), (76, 0), (77, 1), (151, 1), (152, 2)] {
            for edition in [Edition::Pings, Edition::Wires] {
                assert_eq!(start(edition).records(bytes), records);
            }
        }
    }
}
