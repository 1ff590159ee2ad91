//! `repeat N` before a line of a tick stands for N of it.
use super::word::{number, shown, split};

/// How often a line stands for itself, and the line.
pub fn parse(line: &str) -> Result<(u32, &str), String> {
    let line = line.trim_start_matches([' ', '\t']);
    let rest = match line.strip_prefix("repeat") {
        Some(rest) if rest.is_empty() || rest.starts_with([' ', '\t']) => rest,
        _ => return Ok((1, line)),
    };
    let wanted = || format!("repeat wants a number from 1 to {}, then a line", u32::MAX);
    let count = split(rest).next().ok_or_else(wanted)?;
    let times = number(count).and_then(|n| u32::try_from(n).ok());
    let times = times
        .filter(|times| *times > 0)
        .ok_or_else(|| format!("{}, not {}", wanted(), shown(count)))?;
    let (_, line) = rest.split_once(count).unwrap_or_default();
    match split(line).next() {
        None => Err(format!("repeat {times} wants a line after it")),
        Some(word @ ("repeat" | "cut")) => Err(format!("{word} is not repeated")),
        Some(_) => Ok((times, line)),
    }
}

#[cfg(test)]
mod tests {
    use super::*;

    #[test]
    fn a_line_stands_for_itself_or_for_many() {
        assert_eq!(parse("none"), Ok((1, "none")));
        assert_eq!(parse(" repeats 5"), Ok((1, "repeats 5")));
        assert_eq!(
            parse("repeat 12 none wires 0=10"),
            Ok((12, " none wires 0=10"))
        );
        assert_eq!(parse("\trepeat\t0x10 read 1"), Ok((16, " read 1")));
        for line in [
            "repeat",
            "repeat 3",
            "repeat 0 none",
            "repeat -1 none",
            "repeat none",
            "repeat 4294967296 none",
            "repeat 2 repeat 2 none",
            "repeat 2 cut 00",
        ] {
            assert!(parse(line).is_err(), "{line}");
        }
    }
}
