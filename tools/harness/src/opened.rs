//! What stands before the records of a program input.

use handler::Edition;

/// An input taken apart.
pub struct Opened<'a> {
    /// The form of its records.
    pub edition: Edition,
    /// N, where the input is long enough.
    pub n: Option<u8>,
    /// What follows N.
    pub records: &'a [u8],
}

/// The bytes before the records of an edition: its mark, and N.
pub fn opening(edition: Edition, n: u8) -> Vec<u8> {
    edition.mark().into_iter().chain([n]).collect()
}

/// Takes an input apart.
pub fn opened(bytes: &[u8]) -> Opened<'_> {
    let edition = bytes.first().map_or(Edition::Alerts64, |b| Edition::of(*b));
    let before = usize::from(edition.mark().is_some());
    Opened {
        edition,
        n: bytes.get(before).copied(),
        records: bytes.get(before + 1..).unwrap_or(&[]),
    }
}

impl Opened<'_> {
    /// The alerts of its handler: 0 where N is missing or refused.
    pub fn alerts(&self) -> u64 {
        let n = self.n.map_or(0, usize::from);
        if n <= self.edition.alerts() {
            n as u64
        } else {
            0
        }
    }
}

#[cfg(test)]
mod tests {
    use super::*;

    #[test]
    fn an_input_is_taken_apart_by_its_first_byte() {
        for (bytes, edition, n, alerts, records) in [
            (&[][..], Edition::Alerts64, None, 0, 0),
            (&[64, 1, 2], Edition::Alerts64, Some(64), 64, 2),
            (&[65, 1, 2], Edition::Alerts64, Some(65), 0, 2),
            (&[252, 1], Edition::Alerts64, Some(252), 0, 1),
            (&[253], Edition::Wires, None, 0, 0),
            (&[253, 248, 1], Edition::Wires, Some(248), 248, 1),
            (&[253, 253], Edition::Wires, Some(253), 0, 0),
            (&[254], Edition::Pings, None, 0, 0),
            (&[254, 248, 1, 2], Edition::Pings, Some(248), 248, 2),
            (&[254, 254], Edition::Pings, Some(254), 0, 0),
            (&[255], Edition::Alerts248, None, 0, 0),
            (&[255, 0], Edition::Alerts248, Some(0), 0, 0),
            (&[255, 248, 1], Edition::Alerts248, Some(248), 248, 1),
            (&[255, 249], Edition::Alerts248, Some(249), 0, 0),
            (&[255, 255], Edition::Alerts248, Some(255), 0, 0),
        ] {
            let input = opened(bytes);
            assert_eq!((input.edition, input.n), (edition, n), "{bytes:?}");
            assert_eq!((input.alerts(), input.records.len()), (alerts, records));
        }
        for edition in Edition::ALL {
            let before = opening(edition, 9);
            assert_eq!(opened(&before).edition, edition);
            assert_eq!(opened(&before).n, Some(9));
        }
    }
}
