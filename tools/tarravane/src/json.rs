//! JSON, an object in one line.

/// A text; what JSON does not hold as it is, is escaped.
pub fn text(word: impl ToString) -> String {
    let mut all = String::from("\"");
    for c in word.to_string().chars() {
        match c {
            '"' | '\\' => all.extend(['\\', c]),
            c if c.is_control() => all.push_str(&format!("\\u{:04x}", u32::from(c))),
            c => all.push(c),
        }
    }
    all.push('"');
    all
}

pub fn list(all: impl IntoIterator<Item = String>) -> String {
    let all: Vec<String> = all.into_iter().collect();
    format!("[{}]", all.join(","))
}

/// The value, or null.
pub fn maybe(value: Option<impl ToString>) -> String {
    value.map_or("null".to_string(), |value| value.to_string())
}

pub fn object(pairs: &[(&str, String)]) -> String {
    let pairs = pairs
        .iter()
        .map(|(name, value)| format!("\"{name}\":{value}"));
    format!("{{{}}}", pairs.collect::<Vec<_>>().join(","))
}

#[cfg(test)]
mod tests {
    use super::*;

    #[test]
    fn what_json_does_not_hold_is_escaped() {
        assert_eq!(text("a\"b\\c\nö"), r#""a\"b\\c\u000aö""#);
        assert_eq!(list(["1".to_string(), maybe(None::<u8>)]), "[1,null]");
        assert_eq!(
            object(&[("a", text("b")), ("c", list([]))]),
            r#"{"a":"b","c":[]}"#
        );
    }
}
