//! `read`: what a dump shows, as the library reads it. The page and the JSON object are plain Rust.
mod json;
mod locks;
mod missing;
mod page;
mod said;

use crate::args::read::Read;
use crate::end::End;
use crate::output;
use crate::source::{filled, opened};
use handler::{read_dump, Content, Refusal, DUMP_MOST};
use missing::missing;

/// What a file is.
enum Verdict {
    Whole(Box<Content>),
    /// The start of a dump, and how many bytes are missing at least.
    Cut(usize),
    Damaged,
}

/// A file and what it is.
struct Judged {
    /// Those that were read: one more than a dump has at most is enough to see that it is none.
    bytes: Vec<u8>,
    verdict: Verdict,
}

fn judged(bytes: Vec<u8>) -> Judged {
    let (content, answer) = read_dump(&bytes);
    let verdict = match answer.value() {
        Ok(_) => Verdict::Whole(Box::new(content)),
        Err(Refusal::CUT_DUMP) => Verdict::Cut(missing(&bytes)),
        Err(_) => Verdict::Damaged,
    };
    Judged { bytes, verdict }
}

fn taken(name: &str) -> Result<Vec<u8>, String> {
    let (mut from, _) = opened(name)?;
    let mut bytes = vec![0; DUMP_MOST + 1];
    let have = filled(&mut from, &mut bytes, name)?;
    bytes.truncate(have);
    Ok(bytes)
}

pub fn run(asked: &Read) -> Result<End, String> {
    let judged = judged(taken(&asked.file)?);
    let text = match asked.json {
        true => json::object(&judged, asked.names),
        false => page::page(&judged, asked.names),
    };
    let end = match judged.verdict {
        Verdict::Whole(_) => End::Whole,
        _ => End::Damaged,
    };
    output::write(None, |out| {
        out.write_all(text.as_bytes())?;
        Ok(end)
    })
}

#[cfg(test)]
mod tests;
