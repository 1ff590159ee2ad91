//! Runs a trace through a program.

use std::io::{self, Read, Write};
use std::path::Path;
use std::process::{Command, ExitStatus, Stdio};
use std::sync::mpsc;
use std::thread;
use std::time::Duration;

/// The longest that one run may take.
const LIMIT: Duration = Duration::from_secs(20);

/// How a program's run ended.
pub struct Ran {
    /// All that it printed.
    pub output: Vec<u8>,
    /// Its exit status, or nothing if it had to be stopped.
    pub status: Option<ExitStatus>,
}

/// How a run ended, if not by itself. The paper names no exit status.
pub fn ended(ran: &Ran) -> Option<String> {
    match ran.status {
        None => Some(format!("stopped after {} seconds", LIMIT.as_secs())),
        Some(status) if status.code().is_none() => Some(status.to_string()),
        Some(_) => None,
    }
}

/// Runs the program on the bytes, stopping it after the limit.
pub fn program(path: &Path, bytes: &[u8]) -> io::Result<Ran> {
    let mut child = Command::new(path)
        .stdin(Stdio::piped())
        .stdout(Stdio::piped())
        .spawn()?;
    let mut input = child.stdin.take().expect("standard input is piped");
    let mut output = child.stdout.take().expect("standard output is piped");
    let given = bytes.to_vec();
    // A program may end before it has read all; that is no failure here.
    thread::spawn(move || drop(input.write_all(&given)));
    let (send, receive) = mpsc::channel();
    thread::spawn(move || {
        let mut text = Vec::new();
        let result = output.read_to_end(&mut text).map(|_| text);
        // Nobody listens any more once the limit is over.
        let _ = send.send(result);
    });
    match receive.recv_timeout(LIMIT) {
        Ok(result) => Ok(Ran {
            output: result?,
            status: Some(child.wait()?),
        }),
        // The threads are left alone: they may wait for what the program
        // started in its turn.
        Err(_) => {
            child.kill()?;
            child.wait()?;
            Ok(Ran {
                output: Vec::new(),
                status: None,
            })
        }
    }
}
