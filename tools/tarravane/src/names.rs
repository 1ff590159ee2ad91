//! Document 01's words for the numbers of a trace.
use handler::registers::{Naming, Register, Setting};
use handler::{Edition, Place, Refusal, Whose};

/// A register by its name, which is the same in every edition; by its number where the edition has none.
pub fn register(naming: Naming, edition: Edition, number: u16) -> String {
    match edition.registers().register(number) {
        Some(register) => naming.name(register),
        None => number.to_string(),
    }
}

/// The edition's number of a register's name, ours or the papers'.
pub fn number(edition: Edition, name: &str) -> Option<u16> {
    let register = Register::named(name).or_else(|| Register::named_in_papers(name))?;
    edition.registers().number(register)
}

/// A value of a register: of CTRL in hex, of any other in decimal.
pub fn value(register: Option<Register>, value: u32) -> String {
    match register {
        Some(Register::Class(_, Setting::Ctrl)) => format!("{value:#x}"),
        _ => value.to_string(),
    }
}

/// A value that is written.
pub fn written(edition: Edition, number: u16, value: u32) -> String {
    self::value(edition.registers().register(number), value)
}

/// A value that was read: STATE with its name.
pub fn read(edition: Edition, number: u16, value: u32) -> String {
    match edition.registers().register(number) {
        Some(Register::Class(_, Setting::State)) => format!("{value} {}", state(value)),
        _ => written(edition, number, value),
    }
}

/// A STATE number as document 01 names it.
pub fn whole_state(number: u32) -> &'static str {
    match number {
        0 => "Idle",
        1 => "Timeout",
        3 => "Terminal",
        4 => "Phase 0",
        5 => "Phase 1",
        6 => "Phase 2",
        7 => "Phase 3",
        _ => "?",
    }
}

/// A STATE number.
pub fn state(number: u32) -> &'static str {
    match number {
        0 => "Idle",
        1 => "Tout",
        3 => "Term",
        4 => "Ph0",
        5 => "Ph1",
        6 => "Ph2",
        7 => "Ph3",
        _ => "?",
    }
}

/// A STATE number in two letters.
pub fn short_state(number: u32) -> &'static str {
    match number {
        0 => "Id",
        1 => "To",
        3 => "Te",
        4 => "P0",
        5 => "P1",
        6 => "P2",
        7 => "P3",
        _ => "?",
    }
}

/// Where a receiver stands.
pub fn place(place: Place) -> &'static str {
    match place {
        Place::Ready => "Ready",
        Place::Acknowledged => "Acknowledged",
        Place::FirstPause => "Pause 1",
        Place::SecondPause => "Pause 2",
    }
}

/// Whose ping it is.
pub fn pinged(of: Whose) -> String {
    match of {
        Whose::Alert(i) => format!("ALERT{i}"),
        Whose::Line(e) => format!("line {e}"),
    }
}

/// A refusal of an access, of the writer, of a boot or of calm ticks; `reads` tells which way 2 means.
pub fn refusal(refusal: Refusal, reads: bool) -> &'static str {
    match refusal.0 {
        1 => "no register",
        2 if reads => "write only",
        2 => "read only",
        3 => "locked",
        4 => "too wide",
        5 => "malformed",
        7 => "the state breaks its rule",
        10 => "no record holds it",
        11 => "buffer too short",
        12 => "differs",
        13 => "too few alerts",
        14 => "threshold",
        15 => "the ping timer is on",
        18 => "list too short",
        _ => "refused",
    }
}

#[cfg(test)]
mod tests {
    use super::*;

    use Edition::{Alerts248, Alerts64, Pings};

    #[test]
    fn a_register_without_a_name_goes_by_its_number() {
        for (edition, number, name) in [
            (Alerts64, 2, "INTR_TEST"),
            (Alerts64, 3, "3"),
            (Alerts64, 321, "CLASSA_CTRL"),
            (Alerts64, 333, "333"),
            (Alerts64, 512, "512"),
            (Alerts64, 4, "4"),
            (Alerts248, 2, "INTR_TEST"),
            (Alerts248, 5, "5"),
            (Pings, 4, "PING_TIMER_REGWEN"),
            (Pings, 5, "PING_TIMEOUT_CYC"),
            (Pings, 6, "PING_TIMER_EN"),
            (Pings, 7, "7"),
            (Pings, 1281, "CLASSA_CTRL"),
            (Alerts248, 321, "ALERT65_REGWEN"),
            (Alerts248, 1281, "CLASSA_CTRL"),
            (Alerts248, 504, "504"),
        ] {
            assert_eq!(register(Naming::Ours, edition, number), name);
        }
        for edition in Edition::ALL {
            for n in 0..=u16::MAX {
                let named = edition.registers().register(n).is_some();
                for naming in [Naming::Ours, Naming::Papers] {
                    let again = number(edition, &register(naming, edition, n));
                    assert_eq!(again, named.then_some(n));
                }
            }
            assert_eq!(number(edition, "CLASSA_CTL"), None);
        }
    }

    #[test]
    fn values_are_told_by_register() {
        for (edition, class_a) in [(Alerts64, 320), (Alerts248, 1280), (Pings, 1280)] {
            assert_eq!(read(edition, class_a + 1, 0x393C), "0x393c");
            assert_eq!(read(edition, class_a + 12, 7), "7 Ph3");
            assert_eq!(written(edition, class_a + 6, u32::MAX), "4294967295");
        }
        assert_eq!(written(Alerts248, 321, 1), "1");
    }
}
