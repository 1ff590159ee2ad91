//! The words `--from TICK` and `--to TICK`, and a tick by itself.
use super::number;
use super::words::Words;
use crate::range::Range;

/// The tick after an option.
pub fn tick(option: &str, words: &mut Words) -> Result<u64, String> {
    let word = words.value(&format!("{option} wants a tick number"))?;
    let digits = !word.is_empty() && word.bytes().all(|byte| byte.is_ascii_digit());
    match number(word) {
        Some(number) if number > 0 => Ok(number),
        None if digits => Err(format!(
            "{option} {word}: no trace has a tick above {}",
            u64::MAX
        )),
        _ => Err(format!(
            "{option} wants a tick number from 1 on, not {word}"
        )),
    }
}

/// Takes the tick after `--from` or `--to`.
pub fn take(range: &mut Range, option: &str, words: &mut Words) -> Result<(), String> {
    let tick = tick(option, words)?;
    match option {
        "--from" => range.from = tick,
        _ => range.to = tick,
    }
    Ok(())
}

/// A range holds a tick.
pub fn check(Range { from, to }: Range) -> Result<(), String> {
    match from > to {
        true => Err(format!("--from {from} is after --to {to}")),
        false => Ok(()),
    }
}
