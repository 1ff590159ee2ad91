//! Why a command ends with status 2, and what can be asked.

use std::fmt::{self, Display};
use std::io;

const USAGE: &str = "usage:
  harness diff REPLAY [--traces N] [--seed S]    the fixed set, or N traces from seed S
  harness damage REPLAY [--traces N] [--seed S]  random bytes and damaged traces
  harness fuzz REPLAY SECONDS [--seed S]         fresh seeds until the time is over
  harness repeat REPLAY KIND SEED [--records R]  one trace, or its first R records
  harness trace KIND SEED [--records R]          the bytes of a trace
  harness golden REPLAY [FILE]                   kept traces against the words that FILE keeps,
                                                 else those in tools/harness/golden.txt
  harness golden REPLAY --write                  such a file of what REPLAY gives
  harness states [--states N] [--seed S]         damaged states through the proved library
  harness boot [--boots N] [--seed S]            boots through the proved installer
  harness calm [--states N] [--seed S]           calm ticks in one go through the proved library
  harness dump [--states N] [--seed S]           dumps through the proved writer and reader
  harness write [--lists N] [--seed S]           lists through the proved trace writer
  harness bench [--records R]                    times of proved library and reference, or those of R
                                                 records of each load alone
  harness bench --instructions                   instructions of both in place of times, by valgrind
  harness bench --program REPLAY PLAIN [--records R]
                                                 times of a program and of one in plain Rust, on seasons
                                                 of 1, 10, 31.5 and 100 million records, or of R
  harness once SIDE LOAD [--records R]           one batch of a load, proved or reference, for a profiler
  harness season [--records R]                   the bytes of a season's trace
REPLAY is the program to compare with the reference. --edition 24, 70, pings or wires names
the edition of the records: else diff, damage and fuzz take all, repeat and trace 24.
Exit status: 0 equal, 1 different, 2 bad usage, no such file or program, or a failed write.";

/// Why a command ends with status 2.
pub enum Trouble {
    /// What was asked is no command; the usage follows.
    Usage(String),
    /// A file could not be read, or is not what it should be.
    Read(String),
    /// The program could not be run.
    Run(io::Error),
    /// The outcome could not be written.
    Write(io::Error),
}

impl Display for Trouble {
    fn fmt(&self, out: &mut fmt::Formatter) -> fmt::Result {
        match self {
            Trouble::Usage(what) => write!(out, "{what}\n{USAGE}"),
            Trouble::Read(what) => write!(out, "cannot read {what}"),
            Trouble::Run(error) => write!(out, "cannot run: {error}"),
            Trouble::Write(error) => write!(out, "cannot write: {error}"),
        }
    }
}

/// What was asked is no command, for this reason.
pub fn usage(what: impl Into<String>) -> Trouble {
    Trouble::Usage(what.into())
}
