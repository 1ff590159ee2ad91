//! The value of a signal, and how a dump writes it.
use std::borrow::Cow;
use std::fmt::Write;

/// What kind of values a signal has.
#[derive(Clone, Copy, Debug, PartialEq, Eq)]
pub enum Kind {
    Bit,
    /// The two bits of a pair of wires.
    Pair,
    /// A count, or the number of a state: viewers show it in decimal.
    Number,
    Text,
}

#[derive(Clone, Debug, PartialEq, Eq)]
pub enum Value {
    Bit(bool),
    Number(u64),
    Text(Cow<'static, str>),
}

impl Value {
    pub fn text(words: impl Into<Cow<'static, str>>) -> Value {
        Value::Text(words.into())
    }

    /// Adds a line of the dump. A text ends at a space, so it has none.
    pub fn add_line(&self, id: &str, lines: &mut String) {
        // A string takes all that is written.
        let _ = match self {
            Value::Bit(true) => lines.write_str("1"),
            Value::Bit(false) => lines.write_str("0"),
            Value::Number(number) => write!(lines, "b{number:b} "),
            Value::Text(text) => write!(lines, "s{} ", one_word(text)),
        };
        lines.push_str(id);
        lines.push('\n');
    }
}

/// The text as one word of printable characters.
fn one_word(text: &str) -> String {
    let plain = |c: char| if c.is_ascii_graphic() { c } else { '_' };
    match text {
        "" => "-".to_string(),
        _ => text.chars().map(plain).collect(),
    }
}

#[cfg(test)]
mod tests {
    use super::*;

    fn written(value: Value) -> String {
        let mut lines = String::new();
        value.add_line("A", &mut lines);
        lines
    }

    #[test]
    fn values_are_written_as_viewers_read_them() {
        assert_eq!(written(Value::Bit(true)), "1A\n");
        assert_eq!(written(Value::Bit(false)), "0A\n");
        assert_eq!(written(Value::Number(0)), "b0 A\n");
        assert_eq!(written(Value::Number(6)), "b110 A\n");
        assert_eq!(written(Value::text("4 Ph0")), "s4_Ph0 A\n");
        assert_eq!(written(Value::text("")), "s- A\n");
        assert_eq!(written(Value::text("a\tb\né")), "sa_b__ A\n");
    }
}
