//! Is it plainly another file that is given where a trace is wanted: a page, a picture, a dump? Every well-formed record has
//! bytes that are 0, and no such text has one.
use crate::source::filled;
use std::io::Read;

/// The bytes that are looked at, at most and, since fewer hold no record, at least.
const MOST: usize = 512;
const LEAST: usize = 25;

/// Can text have the byte? Those that UTF-8 never has are none.
fn is_text(byte: u8) -> bool {
    matches!(byte, b'\t' | b'\n' | b'\r' | b' '..=b'~' | 0x80..=0xBF | 0xC2..=0xF4)
}

/// What the file is, where it is plainly no trace. `taken` has the bytes that were read, and gets those that are read here: no
/// more than up to the first that is not text.
pub fn other(
    from: &mut impl Read,
    taken: &mut Vec<u8>,
    name: &str,
) -> Result<Option<&'static str>, String> {
    let mut byte = [0];
    while taken.len() < MOST && taken.iter().all(|byte| is_text(*byte)) {
        if filled(from, &mut byte, name)? == 0 {
            break;
        }
        taken.push(byte[0]);
    }
    let is_plain = taken.len() >= LEAST && taken.iter().all(|byte| is_text(*byte));
    Ok(match () {
        _ if taken.starts_with(b"TDMP") => Some("this is a dump: ./tarravane read shows it"),
        _ if is_plain => {
            Some("this is no trace: it is text, and every record has bytes that are 0")
        }
        _ => None,
    })
}

#[cfg(test)]
mod tests {
    use super::*;

    #[test]
    fn text_and_dumps_are_no_traces() {
        let page = b"# A page\n\nIt has words, caf\xC3\xA9 and all.\n";
        let mut first = vec![35];
        first.extend([0; 24]);
        let short = b"# too short to tell";
        for (bytes, is) in [
            (&page[..], true),
            (b"<?xml version=\"1.0\"?>\n<svg></svg>\n", true),
            (b"TDMP\x02", true),
            (&first, false),
            (short, false),
            (b"", false),
            (b"# A page\n\nIt has words, caf\xE9 and all.\n\xFF", false),
        ] {
            let (mut from, mut taken) = (bytes, Vec::new());
            let what = other(&mut from, &mut taken, "t").expect("it is read");
            assert_eq!(what.is_some(), is, "{bytes:?}");
            assert_eq!([&taken[..], from].concat(), bytes);
        }
    }
}
