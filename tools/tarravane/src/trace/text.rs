//! Is it a text that is given where a trace is wanted? A first record that is well-formed has bytes that are 0, which no text
//! has, so no such trace is taken for one; and none that begins with 253, 254 or 255, which are no UTF-8.
use crate::source::filled;
use crate::text::{self, line};
use std::io::Read;

/// The most bytes that are looked at.
const MOST: usize = 4096;

/// Takes a line with its end; false where the bytes end, or come to one that no text has.
fn take_line(from: &mut impl Read, taken: &mut Vec<u8>, name: &str) -> Result<bool, String> {
    let mut byte = [0];
    while taken.len() < MOST {
        if filled(from, &mut byte, name)? == 0 {
            return Ok(false);
        }
        taken.push(byte[0]);
        match byte[0] {
            b'\n' => return Ok(true),
            b'\t' | b'\r' | b' '..=b'~' | 0x80.. => {}
            _ => return Ok(false),
        }
    }
    Ok(false)
}

/// The line without its comment, where it is text.
fn said(line: &[u8]) -> Option<&str> {
    let line = line.strip_prefix(b"\xEF\xBB\xBF").unwrap_or(line);
    let end = line.iter().position(|byte| *byte == b'#');
    let line = std::str::from_utf8(&line[..end.unwrap_or(line.len())]).ok()?;
    let line = line.trim_end_matches(['\r', '\n']);
    let odd = |c: char| c.is_control() && c != '\t';
    (!line.contains(odd)).then_some(line)
}

/// Do comments and blank lines, then `alerts` or `edition`, begin here? `taken` gets the bytes that were read for it.
pub fn begins(from: &mut impl Read, taken: &mut Vec<u8>, name: &str) -> Result<bool, String> {
    loop {
        let start = taken.len();
        let more = take_line(from, taken, name)?;
        match said(&taken[start..]) {
            Some(line) if text::begins(line) => return Ok(true),
            Some(line) if more && line::is_blank(line) => {}
            _ => return Ok(false),
        }
    }
}

#[cfg(test)]
mod tests {
    use super::*;

    /// The answer; what was read for it and what was not are the whole.
    fn is_text(bytes: &[u8]) -> bool {
        let (mut rest, mut taken) = (bytes, Vec::new());
        let is = begins(&mut rest, &mut taken, "t").expect("it is read");
        assert_eq!([&taken, rest].concat(), bytes);
        is
    }

    #[test]
    fn a_text_begins_with_its_first_line_after_comments() {
        for text in [
            "alerts 2",
            "alerts 2\nnone\n",
            "alerts\n",
            "alerts 300\r\n",
            "# a seal\n\n\t alerts 2 # two\n",
            "#caf\u{e9}\r\n\r\nalerts 64\r\n",
            "\u{FEFF}alerts 1\n",
            "edition 24\nalerts 2\n",
            "# a seal\n edition\t70",
        ] {
            assert!(is_text(text.as_bytes()), "{text:?}");
        }
        assert!(is_text(b"# caf\xE9\nalerts 2\n"));
    }

    #[test]
    fn other_bytes_are_a_trace() {
        for bytes in [
            &b""[..],
            b"a",
            b"#",
            b"\n",
            b"# a seal\n",
            b"#alerts 2\n",
            b"none\nalerts 2\n",
            b"alertsx 2\n",
            b"editions 24\n",
            b"alerts\x002\n",
            b"#\nalerts 2\0\n",
            b"#\0\nalerts 2\n",
            b"\xFF\nalerts 2\n",
        ] {
            assert!(!is_text(bytes), "{bytes:?}");
        }
        assert!(!is_text(&b"#\n".repeat(MOST)));
    }

    /// Whatever N is, a first record with the zero bits that a well-formed one has is none.
    #[test]
    fn no_trace_is_taken_for_a_text() {
        for n in 0..=255 {
            let mut bytes = [n; 25];
            (bytes[3], bytes[4]) = (0, 0);
            bytes[5..].copy_from_slice(b"\nalerts 2\nalerts 2\n\n");
            assert!(!is_text(&bytes), "{n}");
            // The mark of an edition is no text, whatever follows it.
            for mark in [253, 254, 255] {
                let marked = [&[mark, n][..], b"\nalerts 2\n"].concat();
                assert!(!is_text(&marked), "{mark}, {n}");
            }
        }
    }
}
