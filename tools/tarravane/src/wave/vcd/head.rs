//! What a dump begins with: comments, the time unit, and a line for each signal.
use super::id::id;
use super::signal::Scope;
use super::value::Kind;
use std::io::{self, Write};

/// A comment ends at `$end`, so it holds no such sign, and stands on one line.
fn comment(words: &str) -> String {
    let plain = |c: char| if c == '$' || c.is_control() { '_' } else { c };
    words.chars().map(plain).collect()
}

fn variable(kind: Kind, id: &str, name: &str) -> String {
    match kind {
        Kind::Bit => format!("$var wire 1 {id} {name} $end"),
        Kind::Pair => format!("$var wire 2 {id} {name} [1:0] $end"),
        // GTKWave takes the highest bit of an integer for its sign: of 64 none is.
        Kind::Number => format!("$var integer 64 {id} {name} $end"),
        Kind::Text => format!("$var string 1 {id} {name} $end"),
    }
}

/// What is said before the signals.
pub struct Head {
    pub comments: Vec<String>,
    /// What made it.
    pub made: String,
}

/// The signals are numbered as they stand; after them comes the one of the trace's end.
pub fn write(out: &mut dyn Write, head: &Head, scopes: &[Scope]) -> io::Result<()> {
    for words in &head.comments {
        writeln!(out, "$comment {} $end", comment(words))?;
    }
    writeln!(out, "$version {} $end\n$timescale 1 s $end", head.made)?;
    let mut number = 0;
    for Scope { name, signals } in scopes {
        writeln!(out, "$scope module {name} $end")?;
        for signal in signals {
            let line = variable(signal.kind(), &id(number), &signal.name());
            writeln!(out, "{line}")?;
            number += 1;
        }
        writeln!(out, "$upscope $end")?;
    }
    let end = variable(Kind::Text, &id(number), "END");
    writeln!(out, "$scope module trace $end\n{end}\n$upscope $end")?;
    writeln!(out, "$enddefinitions $end")
}

#[cfg(test)]
mod tests {
    use super::comment;

    #[test]
    fn a_name_does_not_end_its_comment() {
        assert_eq!(comment("a $end b\n$var"), "a _end b__var");
        assert_eq!(comment("siegel-ö.trace"), "siegel-ö.trace");
    }
}
