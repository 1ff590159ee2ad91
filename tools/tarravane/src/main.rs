//! The command-line tool behind `./tarravane`. It decides nothing about a trace: it asks the proved library.
mod alert_bits;
mod args;
mod back;
mod boot;
mod calm;
mod clock;
mod diff;
mod dump;
mod end;
mod explain;
mod facts;
mod help;
mod json;
mod names;
mod nearest;
mod output;
mod progress;
mod range;
mod read;
mod record;
mod row;
mod runs;
mod say;
mod signals;
mod source;
mod spool;
mod style;
mod summary;
mod terminal;
mod text;
mod trace;
mod wave;

use args::Asked;
use end::End;
use std::process::ExitCode;

fn helped(text: &str) -> Result<End, String> {
    output::write(None, |out| {
        out.write_all(text.as_bytes())?;
        Ok(End::Whole)
    })
}

fn boot(words: &[String]) -> Result<End, String> {
    match args::boot::parse(words)? {
        Asked::Help => helped(help::BOOT),
        Asked::Run(asked) => boot::run(&asked),
    }
}

fn calm(words: &[String]) -> Result<End, String> {
    match args::calm::parse(words)? {
        Asked::Help => helped(help::CALM),
        Asked::Run(asked) => calm::run(&asked),
    }
}

fn diff(words: &[String]) -> Result<End, String> {
    match args::diff::parse(words)? {
        Asked::Help => helped(help::DIFF),
        Asked::Run(asked) => diff::run(&asked),
    }
}

fn explain(words: &[String]) -> Result<End, String> {
    match args::explain::parse(words)? {
        Asked::Help => helped(help::EXPLAIN),
        Asked::Run(asked) => explain::run(&asked),
    }
}

fn dump(words: &[String]) -> Result<End, String> {
    match args::dump::parse(words)? {
        Asked::Help => helped(help::DUMP),
        Asked::Run(asked) => {
            output::check(&asked.trace, asked.to.as_deref())?;
            dump::run(&asked)
        }
    }
}

fn read(words: &[String]) -> Result<End, String> {
    match args::read::parse(words)? {
        Asked::Help => helped(help::READ),
        Asked::Run(asked) => read::run(&asked),
    }
}

fn record(words: &[String]) -> Result<End, String> {
    match args::record::parse(words)? {
        Asked::Help => helped(help::RECORD),
        Asked::Run(asked) => {
            output::check(&asked.from, asked.to.as_deref())?;
            let run = if asked.back { back::run } else { record::run };
            run(&asked)
        }
    }
}

fn wave(words: &[String]) -> Result<End, String> {
    match args::wave::parse(words)? {
        Asked::Help => helped(help::WAVE),
        Asked::Run(asked) => {
            output::check(&asked.trace, Some(&asked.to))?;
            wave::run(&asked)
        }
    }
}

fn run(words: &[String]) -> Result<End, String> {
    match words
        .split_first()
        .map(|(first, rest)| (first.as_str(), rest))
    {
        Some(("boot", rest)) => boot(rest),
        Some(("calm", rest)) => calm(rest),
        Some(("diff", rest)) => diff(rest),
        Some(("dump", rest)) => dump(rest),
        Some(("explain", rest)) => explain(rest),
        Some(("read", rest)) => read(rest),
        Some(("record", rest)) => record(rest),
        Some(("wave", rest)) => wave(rest),
        Some((other, _)) => Err(format!("no such command: {other} (try ./tarravane help)")),
        None => Err("no command (try ./tarravane help)".to_string()),
    }
}

/// The words of the command line; a file's name that is not UTF-8 could not be told from another.
fn words() -> Result<Vec<String>, String> {
    std::env::args_os()
        .skip(1)
        .map(|word| word.into_string())
        .collect::<Result<_, _>>()
        .map_err(|word| format!("not UTF-8 text: {}", word.to_string_lossy()))
}

fn main() -> ExitCode {
    end::status(words().and_then(|words| run(&words)))
}
