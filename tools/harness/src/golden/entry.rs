//! One trace of the golden set.

use crate::compare::{ended, program, Case};
use crate::generate::Kind;
use handler::Edition;
use std::fmt;
use std::io;
use std::path::Path;

/// A trace by its name, what its bytes were, and the words of the program.
#[derive(Clone, Copy, Debug, PartialEq, Eq)]
pub struct Golden {
    /// The form of its records.
    pub edition: Edition,
    /// What the trace is about.
    pub kind: Kind,
    /// Its seed.
    pub seed: u64,
    /// The checksum of its bytes.
    pub trace: u64,
    /// The checksum of what the program printed.
    pub words: u64,
}

/// FNV-1a of 64 bits.
pub fn checksum(bytes: &[u8]) -> u64 {
    bytes.iter().fold(0xCBF2_9CE4_8422_2325, |sum, byte| {
        (sum ^ u64::from(*byte)).wrapping_mul(0x0100_0000_01B3)
    })
}

impl Golden {
    /// What a program gives for a trace, and how many lines it printed.
    pub fn of(path: &Path, case: Case) -> io::Result<(Golden, u64)> {
        let Case {
            edition,
            kind,
            seed,
            ..
        } = case;
        let bytes = case.bytes();
        let ran = program(path, &bytes)?;
        if let Some(ended) = ended(&ran) {
            let what = format!(
                "trace {} {seed} of edition {}: {ended}",
                kind.name(),
                edition.name()
            );
            return Err(io::Error::new(io::ErrorKind::Other, what));
        }
        let lines = ran.output.iter().filter(|byte| **byte == b'\n').count();
        let golden = Golden {
            edition,
            kind,
            seed,
            trace: checksum(&bytes),
            words: checksum(&ran.output),
        };
        Ok((golden, lines as u64))
    }

    /// The trace as a case of the harness.
    pub fn case(&self) -> Case {
        Case {
            edition: self.edition,
            kind: self.kind,
            seed: self.seed,
            records: None,
        }
    }

    /// The trace of a line, as `Display` writes it.
    pub fn named(line: &str) -> Option<Golden> {
        let words: Vec<&str> = line.split(' ').collect();
        let [edition, kind, seed, trace, words] = match words[..] {
            [edition, kind, seed, trace, words] => [edition, kind, seed, trace, words],
            _ => return None,
        };
        let hex = |digits: &str| u64::from_str_radix(digits, 16).ok();
        Some(Golden {
            edition: Edition::named(edition)?,
            kind: Kind::named(kind)?,
            seed: seed.parse().ok()?,
            trace: hex(trace)?,
            words: hex(words)?,
        })
    }
}

impl fmt::Display for Golden {
    fn fmt(&self, out: &mut fmt::Formatter) -> fmt::Result {
        let (edition, kind, seed) = (self.edition.name(), self.kind.name(), self.seed);
        let (trace, words) = (self.trace, self.words);
        write!(out, "{edition} {kind} {seed} {trace:016x} {words:016x}")
    }
}

#[cfg(test)]
mod tests {
    use super::*;

    #[test]
    fn the_checksum_is_fnv_1a() {
        assert_eq!(checksum(b""), 0xCBF2_9CE4_8422_2325);
        assert_eq!(checksum(b"a"), 0xAF63_DC4C_8601_EC8C);
        assert_eq!(checksum(b"foobar"), 0x8594_4171_F739_67E8);
    }

    #[test]
    fn a_line_gives_its_trace() {
        let golden = Golden {
            edition: Edition::Alerts248,
            kind: Kind::Sweep,
            seed: 9,
            trace: 1,
            words: u64::MAX,
        };
        let line = "70 sweep 9 0000000000000001 ffffffffffffffff";
        assert_eq!(golden.to_string(), line);
        assert_eq!(Golden::named(line), Some(golden));
        for other in [
            "",
            "70 sweep 9 1",
            "sweep 9 1 2",
            "71 sweep 9 1 2",
            "75 sweep 9 1 2",
            "70 swept 9 1 2",
            "24 sweep x 1 2",
            "24 sweep 9 1 2 3",
        ] {
            assert_eq!(Golden::named(other), None, "{other}");
        }
    }
}
