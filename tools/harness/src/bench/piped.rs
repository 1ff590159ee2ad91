//! A program that reads a season from one pipe and prints its words into another: what it takes.

use super::season::Season;
use crate::report::progress;
use handler::Edition;
use std::fs::read_to_string;
use std::io::{self, Error, ErrorKind, Read, Write};
use std::path::Path;
use std::process::{ChildStdin, ChildStdout, Command, Stdio};
use std::thread;
use std::time::{Duration, Instant};

/// What a run took, and what it printed.
pub struct Piped {
    /// From its start to its end.
    pub wall: Duration,
    /// The processor's, as the system counts it: by hundredths of a second.
    pub processor: Duration,
    /// The most memory that it had at once, in KiB.
    pub memory: u64,
    /// The bytes that it printed.
    pub printed: u64,
    /// A sum over them in their order.
    pub sum: u64,
}

/// Bytes that are written, or read, at once.
const BLOCK: usize = 1 << 16;

/// Runs a program on so many records of a season.
pub fn piped(program: &Path, season: &Season, records: usize) -> io::Result<Piped> {
    let begin = Instant::now();
    let mut child = Command::new(program)
        .stdin(Stdio::piped())
        .stdout(Stdio::piped())
        .spawn()?;
    let input = child.stdin.take().expect("standard input is piped");
    let output = child.stdout.take().expect("standard output is piped");
    let reader = thread::spawn(move || summed(output));
    let process = format!("/proc/{}", child.id());
    let memory = feed(input, season, records, &process);
    let read = reader.join().expect("the reader does not panic");
    let wall = begin.elapsed();
    // It has ended, and is known until it is waited for.
    let processor = processor(&process);
    let status = child.wait()?;
    let (memory, (printed, sum)) = (memory?, read?);
    if !status.success() {
        return Err(Error::new(ErrorKind::Other, status.to_string()));
    }
    Ok(Piped {
        wall,
        processor: processor?,
        memory,
        printed,
        sum,
    })
}

/// Writes a trace, and gives the memory that its reader had at the end of it.
fn feed(mut input: ChildStdin, season: &Season, records: usize, process: &str) -> io::Result<u64> {
    input.write_all(&Season::opening())?;
    let (mut told, mut written) = (Instant::now(), 0);
    for block in season.pieces(records).flat_map(|piece| piece.chunks(BLOCK)) {
        input.write_all(block)?;
        written += block.len();
        if told.elapsed() > Duration::from_secs(5) {
            told = Instant::now();
            let done = written / Edition::NEWEST.bytes();
            progress(format_args!("  {done} of {records} records"));
        }
    }
    memory(process)
}

/// How many bytes come, and their sum: by eight, whatever blocks they come in.
fn summed(mut output: ChildStdout) -> io::Result<(u64, u64)> {
    let (mut printed, mut sum) = (0, 0_u64);
    let mut block = vec![0; BLOCK];
    loop {
        let got = filled(&mut output, &mut block)?;
        for bytes in block[..got].chunks(8) {
            let mut word = [0; 8];
            word[..bytes.len()].copy_from_slice(bytes);
            sum = (sum ^ u64::from_le_bytes(word)).wrapping_mul(0x0100_0000_01B3);
        }
        printed += got as u64;
        if got < block.len() {
            return Ok((printed, sum));
        }
    }
}

/// Reads until the block is full or nothing more comes.
fn filled(output: &mut ChildStdout, block: &mut [u8]) -> io::Result<usize> {
    let mut got = 0;
    while got < block.len() {
        match output.read(&mut block[got..])? {
            0 => break,
            more => got += more,
        }
    }
    Ok(got)
}

/// What the system does not tell as it should.
fn unclear(what: &str) -> Error {
    Error::new(ErrorKind::Other, format!("{what} has no such number"))
}

/// The most memory that a running process had, in KiB.
fn memory(process: &str) -> io::Result<u64> {
    let status = format!("{process}/status");
    let text = read_to_string(&status)?;
    let line = text.lines().find_map(|line| line.strip_prefix("VmHWM:"));
    let number = line.and_then(|line| line.trim().strip_suffix(" kB"));
    let number = number.and_then(|number| number.parse().ok());
    number.ok_or_else(|| unclear(&status))
}

/// The processor's time of a process that has not been waited for, in the program
/// and in the system: the 12th and 13th number after its name.
fn processor(process: &str) -> io::Result<Duration> {
    let stat = format!("{process}/stat");
    let text = read_to_string(&stat)?;
    let numbers = text.rsplit(')').next().unwrap_or_default();
    let mut numbers = numbers.split_whitespace().skip(11);
    let mut next = || numbers.next().and_then(|word| word.parse::<u64>().ok());
    match (next(), next()) {
        (Some(own), Some(system)) => Ok(Duration::from_millis(10 * (own + system))),
        _ => Err(unclear(&stat)),
    }
}
