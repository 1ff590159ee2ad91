//! Text and numbers as XML has them.

/// Can XML hold the character at all?
fn is_allowed(c: char) -> bool {
    let no = c.is_control() || ('\u{FFFE}'..='\u{FFFF}').contains(&c);
    !no
}

/// Text as the content of an element or of an attribute.
pub fn escaped(text: &str) -> String {
    let mut all = String::with_capacity(text.len());
    for c in text.chars() {
        match c {
            '&' => all.push_str("&amp;"),
            '<' => all.push_str("&lt;"),
            '>' => all.push_str("&gt;"),
            '"' => all.push_str("&quot;"),
            '\'' => all.push_str("&apos;"),
            c if is_allowed(c) => all.push(c),
            _ => all.push('\u{FFFD}'),
        }
    }
    all
}

/// A number of units, to a tenth.
pub fn number(value: f64) -> String {
    let text = format!("{value:.1}");
    text.strip_suffix(".0").unwrap_or(&text).to_string()
}

#[cfg(test)]
mod tests {
    use super::*;

    #[test]
    fn text_stays_text() {
        assert_eq!(
            escaped("<a href=\"x\">&'</a>"),
            "&lt;a href=&quot;x&quot;&gt;&amp;&apos;&lt;/a&gt;"
        );
        assert_eq!(escaped("ö\u{1F512}"), "ö\u{1F512}");
        assert_eq!(escaped("a\nb\0\u{FFFF}"), "a\u{FFFD}b\u{FFFD}\u{FFFD}");
    }

    #[test]
    fn numbers_are_short() {
        for (value, text) in [(0.0, "0"), (12.04, "12"), (12.06, "12.1"), (-3.5, "-3.5")] {
            assert_eq!(number(value), text);
        }
    }
}
