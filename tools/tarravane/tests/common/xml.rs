//! A check that a text is well-formed XML, as far as pictures have it: a prolog, elements, attributes, text, references.

/// What is between the angles of a tag, and the text after it.
fn tags(text: &str) -> Vec<(&str, &str)> {
    let mut all = Vec::new();
    for part in text.split('<').skip(1) {
        let (tag, rest) = part.split_once('>').expect("a tag ends");
        assert!(!rest.contains('>'), "a > in text: {rest}");
        check_references(rest);
        all.push((tag, rest));
    }
    all
}

/// Every & begins one of the five names.
fn check_references(text: &str) {
    for part in text.split('&').skip(1) {
        let (name, _) = part.split_once(';').expect("a reference ends");
        let known = ["amp", "lt", "gt", "quot", "apos"];
        assert!(known.contains(&name), "&{name};");
    }
}

fn is_name(name: &str) -> bool {
    let mut chars = name.chars();
    chars.next().map_or(false, |c| c.is_ascii_alphabetic())
        && chars.all(|c| c.is_ascii_alphanumeric() || "-:_".contains(c))
}

/// Attributes as `name="value"`, each once, parted by spaces.
fn check_attributes(mut rest: &str) {
    let mut seen = Vec::new();
    while !rest.is_empty() {
        let (name, value) = rest.split_once("=\"").expect("a value in quotes");
        let name = name.strip_prefix(' ').expect("a space before a name");
        assert!(is_name(name) && !seen.contains(&name), "{name}");
        seen.push(name);
        let (value, after) = value.split_once('"').expect("the value ends");
        check_references(value);
        rest = after;
    }
}

/// Opens, closes or both; the names of open elements.
fn check_tag<'a>(tag: &'a str, open: &mut Vec<&'a str>) {
    if let Some(name) = tag.strip_prefix('/') {
        assert_eq!(open.pop(), Some(name));
        return;
    }
    let (tag, closed) = match tag.strip_suffix('/') {
        Some(tag) => (tag, true),
        None => (tag, false),
    };
    let end = tag.find(' ').unwrap_or(tag.len());
    let (name, attributes) = tag.split_at(end);
    assert!(is_name(name), "{name}");
    check_attributes(attributes);
    if !closed {
        open.push(name);
    }
}

/// Panics where the text is not well-formed.
pub fn check(text: &str) {
    let prolog = "<?xml version=\"1.0\" encoding=\"UTF-8\"?>\n";
    let body = text.strip_prefix(prolog).expect("a prolog");
    let odd = |c: char| (c.is_control() && c != '\n') || ('\u{FFFE}'..='\u{FFFF}').contains(&c);
    assert!(!body.contains(odd), "a character that XML does not have");
    assert!(body.starts_with('<'));
    let (mut open, mut roots) = (Vec::new(), 0);
    for (tag, rest) in tags(body) {
        roots += usize::from(open.is_empty());
        check_tag(tag, &mut open);
        assert!(!open.is_empty() || rest.trim().is_empty(), "text: {rest}");
    }
    assert!(open.is_empty(), "open: {open:?}");
    assert_eq!(roots, 1, "one root");
}
