//! Reads N and trace records from standard input and prints one word a line.
//! A first byte of 255 says that N comes next and the records are those of the
//! second edition, one of 254 the same of the third, and one of 253 of the
//! fourth.
//!
//! The paper names no exit status: it is 0 after `cut` and `refused` too, and
//! only a failure to read or write gives another.

use reference::{batch, Edition, Handler};
use std::io::{self, Read, Write};

/// The first byte of an input with records of the second edition.
const SECOND: u8 = 255;
/// The first byte of an input with records of the third edition.
const THIRD: u8 = 254;
/// The first byte of an input with records of the fourth edition.
const FOURTH: u8 = 253;
/// Records taken in one block.
const BLOCK: usize = 8192;

fn main() -> io::Result<()> {
    let mut input = io::stdin().lock();
    let mut output = io::stdout().lock();
    match opening(&mut input)? {
        Some((edition, mut handler)) => replay(&mut handler, edition, &mut input, &mut output)?,
        None => output.write_all(b"refused\n")?,
    }
    output.flush()
}

/// Reads what stands before the records: their edition, and a new handler of
/// N alerts. Gives nothing if N is missing or refused.
fn opening(input: &mut impl Read) -> io::Result<Option<(Edition, Handler)>> {
    let (edition, n) = match byte(input)? {
        Some(SECOND) => (Edition::Second, byte(input)?),
        Some(THIRD) => (Edition::Third, byte(input)?),
        Some(FOURTH) => (Edition::Fourth, byte(input)?),
        n => (Edition::First, n),
    };
    // A missing N counts as a refused one.
    let n = u64::from(n.unwrap_or(0));
    let (handler, answer) = Handler::new(n);
    // A handler can be larger than the first edition allows.
    if answer != 0 || n > edition.alerts() as u64 {
        return Ok(None);
    }
    Ok(Some((edition, handler)))
}

/// The next byte, if there is one.
fn byte(input: &mut impl Read) -> io::Result<Option<u8>> {
    let mut byte = [0];
    let got = fill(input, &mut byte)?;
    Ok(if got == 1 { Some(byte[0]) } else { None })
}

/// Runs blocks of records until the input ends; rest bytes print `cut`.
fn replay(
    handler: &mut Handler,
    edition: Edition,
    input: &mut impl Read,
    output: &mut impl Write,
) -> io::Result<()> {
    let size = edition.bytes();
    let mut bytes = vec![0; BLOCK * size];
    let mut words = vec![0; BLOCK];
    let mut text = Vec::with_capacity(BLOCK * 17);
    loop {
        let got = fill(input, &mut bytes)?;
        let records = got / size;
        // Never refused: whole records, enough words, a state calls produced,
        // no more alerts than the edition allows, and no timer on without words.
        batch(handler, edition, &bytes[..records * size], &mut words);
        text.clear();
        for word in &words[..records] {
            print_word(*word, &mut text);
        }
        if got % size != 0 {
            text.extend_from_slice(b"cut\n");
        }
        output.write_all(&text)?;
        if got < bytes.len() {
            return Ok(());
        }
    }
}

/// Reads until the buffer is full or the input ends; gives the bytes read.
fn fill(input: &mut impl Read, buffer: &mut [u8]) -> io::Result<usize> {
    let mut got = 0;
    while got < buffer.len() {
        match input.read(&mut buffer[got..]) {
            Ok(0) => break,
            Ok(more) => got += more,
            Err(error) if error.kind() == io::ErrorKind::Interrupted => {}
            Err(error) => return Err(error),
        }
    }
    Ok(got)
}

/// Appends 16 lower-case hex digits and a newline.
fn print_word(word: u64, text: &mut Vec<u8>) {
    for digit in (0..16).rev() {
        let nibble = (word >> (4 * digit)) & 0xF;
        text.push(b"0123456789abcdef"[nibble as usize]);
    }
    text.push(b'\n');
}
