//! Words that a program gave once for traces of every edition, kept as one
//! checksum a trace: every later program gives the same. `golden.txt` has those
//! of the program of request (viii), since which alerts shake hands, for records
//! of 24 and 70 bytes, those of request (ix) for traces with the ping timer, and
//! those of request (xi) for traces with receive pairs.

mod entry;
mod set;

pub use entry::{checksum, Golden};
pub use set::{cases, compare, listed, Kept, Other};
