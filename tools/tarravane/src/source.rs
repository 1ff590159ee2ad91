//! What a trace or a text is read from.
use handler::Edition;
use std::fs::File;
use std::io::{stdin, BufReader, ErrorKind, Read};

/// Records that are read at once.
pub const AT_ONCE: usize = 4096;

pub type Source = BufReader<Box<dyn Read>>;

/// A file by its name, standard input where that is -, and how many bytes it has where that is known.
pub fn opened(name: &str) -> Result<(Source, Option<u64>), String> {
    let (from, bytes): (Box<dyn Read>, _) = if name == "-" {
        (Box::new(stdin()), None)
    } else {
        let file = File::open(name).map_err(|e| format!("cannot open {name}: {e}"))?;
        let about = file.metadata().ok().filter(|about| about.is_file());
        (Box::new(file), about.map(|about| about.len()))
    };
    let at_once = AT_ONCE * Edition::NEWEST.bytes();
    Ok((BufReader::with_capacity(at_once, from), bytes))
}

/// Fills as much of the buffer as there are bytes left.
pub fn filled(from: &mut impl Read, buffer: &mut [u8], name: &str) -> Result<usize, String> {
    let mut have = 0;
    while have < buffer.len() {
        match from.read(&mut buffer[have..]) {
            Ok(0) => break,
            Ok(more) => have += more,
            Err(e) if e.kind() == ErrorKind::Interrupted => {}
            Err(e) => return Err(format!("cannot read {name}: {e}")),
        }
    }
    Ok(have)
}
