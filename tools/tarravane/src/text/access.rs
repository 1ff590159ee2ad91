//! The access of a tick: `none`, `read REGISTER` or `write REGISTER VALUE`.
use super::word::{number, shown};
use crate::names;
use crate::nearest::nearest;
use handler::registers::Naming;
use handler::{Access, Edition};

/// A register by its name, ours or the papers', or by the edition's number as far as the writer takes one; whether a record
/// holds it, the writer says.
fn register(edition: Edition, verb: &str, word: Option<&str>) -> Result<u16, String> {
    let word = word.ok_or_else(|| format!("{verb} wants a register"))?;
    let number = || number(word).and_then(|n| u16::try_from(n).ok());
    names::number(edition, word)
        .or_else(number)
        .ok_or_else(|| unknown(edition, word))
}

/// What is said of a register that there is not, with the nearest names.
fn unknown(edition: Edition, word: &str) -> String {
    let why = format!("no such register: {}", shown(word));
    match &nearest(edition, word)[..] {
        [] => why,
        names => format!("{why} (nearest: {})", names.join(", ")),
    }
}

fn value(word: Option<&str>) -> Result<u32, String> {
    let word = word.ok_or("write wants a register and a value")?;
    number(word)
        .and_then(|n| u32::try_from(n).ok())
        .ok_or_else(|| format!("not a value from 0 to {}: {}", u32::MAX, shown(word)))
}

/// Takes the words of the access, and no more.
pub fn parse<'a>(
    edition: Edition,
    words: &mut impl Iterator<Item = &'a str>,
) -> Result<Access, String> {
    match words.next() {
        Some("none") => Ok(Access::Nothing),
        Some("read") => Ok(Access::Read(register(edition, "read", words.next())?)),
        Some("write") => {
            let register = register(edition, "write", words.next())?;
            Ok(Access::Write(register, value(words.next())?))
        }
        other => Err(format!(
            "none, read, write, raw or cut is wanted, not {}",
            shown(other.unwrap_or("nothing"))
        )),
    }
}

/// The words of an access. No text has the last of them.
pub fn words(naming: Naming, edition: Edition, access: Access) -> String {
    let name = |number| names::register(naming, edition, number);
    match access {
        Access::Nothing => "none".to_string(),
        Access::Read(number) => format!("read {}", name(number)),
        Access::Write(number, value) => {
            let value = names::written(edition, number, value);
            format!("write {} {value}", name(number))
        }
        Access::Malformed => "kind 3".to_string(),
    }
}

#[cfg(test)]
mod tests {
    use super::*;

    fn parsed(edition: Edition, text: &str) -> Result<Access, String> {
        parse(edition, &mut text.split(' '))
    }

    #[test]
    fn every_access_goes_both_ways() {
        for edition in Edition::ALL {
            for register in 0..=u16::MAX {
                for access in [
                    Access::Read(register),
                    Access::Write(register, 0),
                    Access::Write(register, u32::MAX),
                ] {
                    for naming in [Naming::Ours, Naming::Papers] {
                        let words = words(naming, edition, access);
                        assert_eq!(parsed(edition, &words), Ok(access));
                    }
                }
            }
            assert_eq!(parsed(edition, "none"), Ok(Access::Nothing));
        }
    }

    /// A name is the same in every edition, a number is the edition's own.
    #[test]
    fn a_register_has_a_name_and_a_number() {
        for (edition, number) in [(Edition::Alerts64, 321), (Edition::Pings, 1281)] {
            let access = Ok(Access::Write(number, 0x393F));
            for text in [
                "write CLASSA_CTRL 0x393f",
                "write CLASSA_CTRL_SHADOWED 0x393f",
                &format!("write {number} 14655"),
                &format!("write {number:#x} 0x393F"),
            ] {
                assert_eq!(parsed(edition, text), access, "{text}");
            }
        }
    }

    #[test]
    fn an_edition_names_its_own_alerts() {
        for (edition, most) in [(Edition::Alerts64, 64), (Edition::Pings, 248)] {
            let read = |i: usize| parsed(edition, &format!("read ALERT{i}_EN"));
            assert!(read(most - 1).is_ok());
            let problem = format!("no such register: ALERT{most}_EN (nearest: ");
            let said = read(most).expect_err("no such alert");
            assert!(said.starts_with(&problem), "{said}");
        }
    }

    /// The ping timer's registers are of the newer editions alone.
    #[test]
    fn the_oldest_editions_name_no_ping_timer() {
        for (name, number) in [
            ("PING_TIMER_REGWEN", 4),
            ("PING_TIMEOUT_CYC", 5),
            ("PING_TIMEOUT_CYC_SHADOWED", 5),
            ("PING_TIMER_EN", 6),
        ] {
            let text = format!("read {name}");
            for edition in [Edition::Pings, Edition::Wires] {
                assert_eq!(parsed(edition, &text), Ok(Access::Read(number)));
            }
            for edition in [Edition::Alerts64, Edition::Alerts248] {
                let problem = format!("no such register: {name}");
                let said = parsed(edition, &text).expect_err("no timer");
                assert!(said.starts_with(&problem), "{said}");
            }
        }
    }

    #[test]
    fn bad_words_are_told() {
        for (text, problem) in [
            (
                "reed INTR_STATE",
                "none, read, write, raw or cut is wanted, not reed",
            ),
            ("read", "read wants a register"),
            ("write", "write wants a register"),
            ("write INTR_STATE", "write wants a register and a value"),
            (
                "read CLASSA_CTL",
                "no such register: CLASSA_CTL (nearest: CLASSA_CTRL)",
            ),
            ("read 65536", "no such register: 65536"),
            ("read -1", "no such register: -1"),
            (
                "write 0 4294967296",
                "not a value from 0 to 4294967295: 4294967296",
            ),
            ("write 0 x", "not a value from 0 to 4294967295: x"),
        ] {
            assert_eq!(parsed(Edition::NEWEST, text), Err(problem.to_string()));
        }
    }
}
