//! How a boot ended, in words.
use crate::names;
use handler::boot::BOOT_ALERTS;
use handler::registers::MAP;
use handler::{Installed, Refusal};

/// Nothing was installed: the refusal is of the whole call.
fn refused(refusal: Refusal, n: usize) -> String {
    match refusal {
        Refusal::FEW_ALERTS => {
            format!("refused: {n} alerts are too few, a boot installs {BOOT_ALERTS}; nothing was changed")
        }
        _ => format!(
            "refused: {}; nothing was changed",
            names::refusal(refusal, false)
        ),
    }
}

/// Why it stopped at a register.
fn why(number: u16, answer: Result<u32, Refusal>) -> String {
    match answer {
        Err(refusal) => format!("refused: {}", names::refusal(refusal, false)),
        Ok(value) => {
            let value = names::value(MAP.register(number), value);
            format!("it reads {value}, which was not written")
        }
    }
}

/// The last line.
pub fn end(installed: &Installed) -> String {
    match (installed.register, installed.answer.value()) {
        (0, Ok(_)) => "installed: every register that was written reads back".to_string(),
        (0, Err(refusal)) => refused(refusal, installed.handler.n),
        (number, answer) => {
            let name = MAP.register(number).map(|register| register.to_string());
            let name = name.unwrap_or_default();
            format!("stopped: {name} ({number}): {}", why(number, answer))
        }
    }
}
