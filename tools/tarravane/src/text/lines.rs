//! The lines of a text, one at a time, so that a line of any length takes bounded memory.
use std::io::{self, BufRead, ErrorKind};

/// The most bytes that a line has before its comment.
const LONGEST: usize = 4096;

/// What some editors put before a text.
const BYTE_ORDER_MARK: &[u8] = b"\xEF\xBB\xBF";

pub struct Lines<R> {
    from: R,
    name: String,
    number: u64,
    kept: Vec<u8>,
}

impl<R: BufRead> Lines<R> {
    /// `name`: what a failed read calls the text.
    pub fn new(from: R, name: &str) -> Lines<R> {
        Lines {
            from,
            name: name.to_string(),
            number: 0,
            kept: Vec::new(),
        }
    }

    /// How many lines were taken.
    pub fn number(&self) -> u64 {
        self.number
    }

    /// The next line without comment and line end, nothing after the last one. A line ends by LF or CRLF.
    pub fn take(&mut self) -> Result<Option<&str>, String> {
        match self.gather() {
            Err(e) => return Err(format!("cannot read {}: {e}", self.name)),
            Ok(false) => return Ok(None),
            Ok(true) => self.number += 1,
        }
        let mut line = &self.kept[..];
        if line.len() > LONGEST {
            let number = self.number;
            return Err(format!("line {number}: longer than {LONGEST} bytes"));
        }
        if self.number == 1 {
            line = line.strip_prefix(BYTE_ORDER_MARK).unwrap_or(line);
        }
        line = line.strip_suffix(b"\r").unwrap_or(line);
        match std::str::from_utf8(line) {
            Ok(line) => Ok(Some(line)),
            Err(e) => Err(format!(
                "line {}: not UTF-8 text: byte {:#04x}",
                self.number,
                line[e.valid_up_to()]
            )),
        }
    }

    /// Takes the bytes of a line and keeps those before a comment, one more than may be at most; false at the end.
    fn gather(&mut self) -> io::Result<bool> {
        self.kept.clear();
        let (mut any, mut comment) = (false, false);
        loop {
            let bytes = match self.from.fill_buf() {
                Err(e) if e.kind() == ErrorKind::Interrupted => continue,
                bytes => bytes?,
            };
            if bytes.is_empty() {
                return Ok(any);
            }
            any = true;
            let end = bytes.iter().position(|byte| *byte == b'\n');
            let piece = &bytes[..end.unwrap_or(bytes.len())];
            if !comment {
                let hash = piece.iter().position(|byte| *byte == b'#');
                comment = hash.is_some();
                let room = LONGEST + 1 - self.kept.len();
                let said = hash.unwrap_or(piece.len()).min(room);
                self.kept.extend_from_slice(&piece[..said]);
                if self.kept.len() > LONGEST {
                    return Ok(true);
                }
            }
            let taken = end.map_or(bytes.len(), |at| at + 1);
            self.from.consume(taken);
            if end.is_some() {
                return Ok(true);
            }
        }
    }
}

#[cfg(test)]
mod tests {
    use super::*;
    use std::io::BufReader;

    /// The lines, read in pieces of every small size.
    fn lines(bytes: &[u8]) -> Result<Vec<String>, String> {
        let of = |size| {
            let mut lines = Lines::new(BufReader::with_capacity(size, bytes), "t");
            let mut all = Vec::new();
            while let Some(line) = lines.take()? {
                all.push(line.to_string());
            }
            assert_eq!(lines.number(), all.len() as u64);
            Ok(all)
        };
        let whole = of(1 << 16);
        for size in 1..9 {
            assert_eq!(of(size), whole);
        }
        whole
    }

    #[test]
    fn comments_and_line_ends_are_left_out() {
        for (bytes, wanted) in [
            (&b""[..], vec![]),
            (b"\n", vec![""]),
            (b"a", vec!["a"]),
            (b"a\n", vec!["a"]),
            (b"a\r\n\r\nb\r\n", vec!["a", "", "b"]),
            (b"a\r", vec!["a"]),
            (b"a # b\n#c\nd#", vec!["a ", "", "d"]),
            (b"a#\r\nb#\xFF\xFE\0\nc", vec!["a", "b", "c"]),
            (b"\xEF\xBB\xBFa\nb", vec!["a", "b"]),
            (b"a\rb\n", vec!["a\rb"]),
            (b"a\0b", vec!["a\0b"]),
        ] {
            let wanted = wanted.into_iter().map(str::to_string).collect();
            assert_eq!(lines(bytes), Ok(wanted));
        }
    }

    #[test]
    fn a_long_comment_is_fine_and_a_long_line_is_not() {
        let long =
            |start: &str, byte: &str| format!("x\n{start}{}\ny", byte.repeat(LONGEST)).into_bytes();
        assert_eq!(lines(&long("a#", "#")).map(|all| all.len()), Ok(3));
        assert_eq!(lines(&long("", " ")).map(|all| all.len()), Ok(3));
        let problem = Err("line 2: longer than 4096 bytes".to_string());
        assert_eq!(lines(&long("a", "a")), problem);
    }

    #[test]
    fn other_bytes_are_told() {
        for (bytes, problem) in [
            (&b"a\nb\xFFc\n"[..], "line 2: not UTF-8 text: byte 0xff"),
            (b"\xC3", "line 1: not UTF-8 text: byte 0xc3"),
            (b"a\n\xEF\xBB", "line 2: not UTF-8 text: byte 0xef"),
        ] {
            assert_eq!(lines(bytes), Err(problem.to_string()));
        }
    }
}
