//! A JSON value, read strictly: for tests that what is written is JSON.
use std::iter::Peekable;
use std::str::Chars;

#[derive(Debug, PartialEq, Eq)]
pub enum Json {
    Null,
    Bool(bool),
    Number(u64),
    Text(String),
    List(Vec<Json>),
    Object(Vec<(String, Json)>),
}

impl Json {
    pub fn text(word: impl ToString) -> Json {
        Json::Text(word.to_string())
    }

    /// The one value of this name.
    pub fn get(&self, name: &str) -> &Json {
        match self {
            Json::Object(pairs) => {
                let mut of = pairs.iter().filter(|(it, _)| it == name);
                let (_, value) = of.next().expect(name);
                assert!(of.next().is_none(), "{name} twice");
                value
            }
            other => panic!("no object: {other:?}"),
        }
    }

    pub fn list(&self) -> &[Json] {
        match self {
            Json::List(all) => all,
            other => panic!("no list: {other:?}"),
        }
    }

    pub fn number(&self) -> u64 {
        match self {
            Json::Number(number) => *number,
            other => panic!("no number: {other:?}"),
        }
    }

    /// The names of an object's values, as they stand.
    pub fn names(&self) -> Vec<&str> {
        match self {
            Json::Object(pairs) => pairs.iter().map(|(name, _)| &name[..]).collect(),
            other => panic!("no object: {other:?}"),
        }
    }

    pub fn numbers(&self) -> Vec<u64> {
        self.list().iter().map(Json::number).collect()
    }

    pub fn texts(&self) -> Vec<String> {
        let text = |it: &Json| match it {
            Json::Text(text) => text.clone(),
            other => panic!("no text: {other:?}"),
        };
        self.list().iter().map(text).collect()
    }
}

fn expect(chars: &mut Peekable<Chars>, wanted: &str) {
    for c in wanted.chars() {
        assert_eq!(chars.next(), Some(c));
    }
}

/// Without escapes: none is needed.
fn text(chars: &mut Peekable<Chars>) -> String {
    expect(chars, "\"");
    let mut all = String::new();
    loop {
        match chars.next().expect("the end of a text") {
            '"' => return all,
            c if c == '\\' || c.is_control() => panic!("{c:?} in a text"),
            c => all.push(c),
        }
    }
}

/// Entries between these two, with commas.
fn entries<T>(
    chars: &mut Peekable<Chars>,
    ends: [&str; 2],
    entry: fn(&mut Peekable<Chars>) -> T,
) -> Vec<T> {
    expect(chars, ends[0]);
    let mut all = Vec::new();
    let last = ends[1].chars().next();
    while chars.peek().copied() != last {
        if !all.is_empty() {
            expect(chars, ",");
        }
        all.push(entry(chars));
    }
    expect(chars, ends[1]);
    all
}

fn pair(chars: &mut Peekable<Chars>) -> (String, Json) {
    let name = text(chars);
    expect(chars, ":");
    (name, value(chars))
}

fn value(chars: &mut Peekable<Chars>) -> Json {
    match chars.peek().expect("a value") {
        'n' => {
            expect(chars, "null");
            Json::Null
        }
        't' => {
            expect(chars, "true");
            Json::Bool(true)
        }
        'f' => {
            expect(chars, "false");
            Json::Bool(false)
        }
        '"' => Json::Text(text(chars)),
        '[' => Json::List(entries(chars, ["[", "]"], value)),
        '{' => Json::Object(entries(chars, ["{", "}"], pair)),
        _ => {
            let mut digits = String::new();
            while chars.peek().map_or(false, char::is_ascii_digit) {
                digits.extend(chars.next());
            }
            let number: u64 = digits.parse().expect("a number");
            assert_eq!(number.to_string(), digits);
            Json::Number(number)
        }
    }
}

/// The value of a line.
pub fn parsed(line: &str) -> Json {
    let mut chars = line.strip_suffix('\n').expect("a line").chars().peekable();
    let value = value(&mut chars);
    assert_eq!(chars.next(), None);
    value
}
