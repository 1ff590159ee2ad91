//! How a command ends: one rule of exit statuses for all of them.
use crate::say::say;
use std::process::ExitCode;

/// How a command ends that did what it was asked.
#[derive(Clone, Copy, Debug, PartialEq, Eq)]
pub enum End {
    /// Status 0. Also where the reader of the output went away: it asked for no more.
    Whole,
    /// Status 1: the trace is cut, or its N missing or refused; a boot stopped or was refused; calm ticks were refused; a trace
    /// has no such state to dump; a file is a cut dump or none.
    Damaged,
}

/// The exit status; 2 is for usage, a missing file, a failed read or write, and that is told.
pub fn status(end: Result<End, String>) -> ExitCode {
    match end {
        Ok(End::Whole) => ExitCode::SUCCESS,
        Ok(End::Damaged) => ExitCode::from(1),
        Err(problem) => {
            say(&problem);
            ExitCode::from(2)
        }
    }
}
