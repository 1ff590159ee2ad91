//! The editions of a trace: what is known of each one's form.
use crate::registers::{Map, MAP, MAP_248, MAP_64};

/// The form of a trace, named by what it brings. A record is 2 bits kind, the register, zero bits to 32, 32 bits
/// value, then the positive and the negative wires, alert 0 first, and then what the edition has behind them.
#[derive(Clone, Copy, Debug, PartialEq, Eq)]
pub enum Edition {
    /// Document 01's: N up to 64, N first.
    Alerts64,
    /// That of 248 alerts: a first byte of 255, then N.
    Alerts248,
    /// That of the ping timer: a first byte of 254, then N. Behind the wires are 32 bits entropy word, four zero bits and
    /// four answer bits, line 0 first.
    Pings,
    /// That of the escalation wires: a first byte of 253, then N. Behind the wires are 32 bits entropy word and the four
    /// receive pairs, line 0 and the positive wire first.
    Wires,
}

use Edition::*;

impl Edition {
    /// All, the oldest first.
    pub const ALL: [Edition; 4] = [Alerts64, Alerts248, Pings, Wires];
    /// The one that is written.
    pub const NEWEST: Edition = Wires;

    /// The name by which it is asked for: two editions may have as many bytes. `./tarravane --version` reads these lines.
    pub const fn name(self) -> &'static str {
        match self {
            Alerts64 => "24",
            Alerts248 => "70",
            Pings => "pings",
            Wires => "wires",
        }
    }

    /// The edition of this name.
    pub fn named(name: &str) -> Option<Edition> {
        Edition::ALL.into_iter().find(|it| it.name() == name)
    }

    /// The edition of a trace that begins with this byte.
    pub fn of(first: u8) -> Edition {
        let marked = |edition: &Edition| edition.mark() == Some(first);
        Edition::ALL.into_iter().find(marked).unwrap_or(Alerts64)
    }

    /// The byte before N; none where N is the first byte.
    pub const fn mark(self) -> Option<u8> {
        match self {
            Alerts64 => None,
            Alerts248 => Some(255),
            Pings => Some(254),
            Wires => Some(253),
        }
    }

    /// The bytes of a record.
    pub const fn bytes(self) -> usize {
        8 + 2 * self.wire_bytes() + self.tail_bytes()
    }

    /// The bytes behind the wires.
    pub const fn tail_bytes(self) -> usize {
        match self {
            Alerts64 | Alerts248 => 0,
            Pings | Wires => 5,
        }
    }

    /// Do its records reach the ping timer: its registers, its word and the lines' answers?
    pub const fn has_timer(self) -> bool {
        self.registers().timer
    }

    /// Have its records the lines' receive pairs? Only then they are checked.
    pub const fn has_receive(self) -> bool {
        matches!(self, Wires)
    }

    /// The most alerts: a record has a positive and a negative wire of each.
    pub const fn alerts(self) -> usize {
        self.registers().alerts
    }

    /// The bytes of the positive wires, and of the negative ones.
    pub const fn wire_bytes(self) -> usize {
        self.alerts() / 8
    }

    /// The bits of a record's register.
    pub const fn register_bits(self) -> u32 {
        match self {
            Alerts64 => 10,
            Alerts248 | Pings | Wires => 11,
        }
    }

    /// The zero bits behind it.
    pub const fn zero_bits(self) -> u32 {
        30 - self.register_bits()
    }

    /// Its register numbers.
    pub const fn registers(self) -> Map {
        match self {
            Alerts64 => MAP_64,
            Alerts248 => MAP_248,
            Pings | Wires => MAP,
        }
    }
}

const _: () = {
    assert!(Edition::ALL.len() == 4);
    assert!(Alerts64.bytes() == 24);
    assert!(Alerts248.bytes() == 70);
    assert!(Pings.bytes() == 75);
    assert!(Wires.bytes() == 75);
};

#[test]
fn an_edition_goes_by_its_name_and_its_first_byte() {
    for edition in Edition::ALL {
        assert_eq!(Edition::named(edition.name()), Some(edition));
        assert_eq!(edition.has_timer(), edition.bytes() == 75);
        assert_eq!(edition.has_receive(), edition == Wires);
    }
    for other in ["", "75", "Pings", "240", "alerts", "253"] {
        assert_eq!(Edition::named(other), None, "{other}");
    }
    for first in 0..253 {
        assert_eq!(Edition::of(first), Alerts64, "{first}");
    }
    let marked = [253, 254, 255].map(Edition::of);
    assert_eq!(marked, [Wires, Pings, Alerts248]);
}
