//! A reader of Value Change Dumps, stricter than the viewers.
use std::collections::HashMap;

#[derive(Clone, Debug, PartialEq, Eq)]
pub struct Signal {
    /// wire, integer or string.
    pub kind: String,
    pub bits: usize,
    /// Each value with the time from which it holds.
    pub values: Vec<(u64, String)>,
}

#[derive(Debug, Default)]
pub struct Dump {
    pub comments: Vec<String>,
    pub timescale: String,
    /// By scope and name: `class_a.CLASSA_STATE`.
    pub signals: HashMap<String, Signal>,
    /// The names in the order of the head.
    pub names: Vec<String>,
    /// The last time.
    pub end: u64,
    by_id: HashMap<String, String>,
    scope: String,
}

impl Dump {
    pub fn parse(text: &str) -> Dump {
        assert!(text.is_ascii() && text.ends_with('\n'));
        let mut dump = Dump::default();
        let mut lines = text.lines();
        for line in lines.by_ref() {
            if !dump.head(line) {
                break;
            }
        }
        let (mut time, mut in_first) = (None, false);
        for line in lines {
            match line {
                "$dumpvars" => in_first = true,
                "$end" if in_first => in_first = false,
                _ => match line.strip_prefix('#') {
                    Some(number) => time = Some(dump.time(time, number)),
                    None => dump.change(time.expect("a time before it"), line),
                },
            }
        }
        assert!(!in_first);
        dump.end = time.expect("a time");
        dump
    }

    /// A line of the head; false at its end.
    fn head(&mut self, line: &str) -> bool {
        let words: Vec<&str> = line.split(' ').collect();
        assert_eq!(words.last(), Some(&"$end"), "{line}");
        match &words[..words.len() - 1] {
            ["$comment", rest @ ..] => self.comments.push(rest.join(" ")),
            ["$version", ..] => {}
            ["$timescale", rest @ ..] => self.timescale = rest.join(" "),
            ["$scope", "module", name] => self.scope = name.to_string(),
            ["$upscope"] => self.scope.clear(),
            ["$var", kind, bits, id, name, range @ ..] => {
                let bits: usize = bits.parse().expect("a number of bits");
                let wide = format!("[{}:0]", bits - 1);
                assert!(range.is_empty() || range == [&wide[..]], "{line}");
                self.declare(kind, bits, id, name);
            }
            ["$enddefinitions"] => return false,
            _ => panic!("{line}"),
        }
        true
    }

    fn declare(&mut self, kind: &str, bits: usize, id: &str, name: &str) {
        assert!(["wire", "integer", "string"].contains(&kind), "{kind}");
        assert!(!self.scope.is_empty());
        let name = format!("{}.{name}", self.scope);
        let signal = Signal {
            kind: kind.to_string(),
            bits,
            values: Vec::new(),
        };
        assert!(self.signals.insert(name.clone(), signal).is_none());
        assert!(self.by_id.insert(id.to_string(), name.clone()).is_none());
        self.names.push(name);
    }

    fn time(&self, last: Option<u64>, number: &str) -> u64 {
        let time = number.parse().expect("a time");
        assert!(last.map_or(time == 0, |last| last < time), "{number}");
        if last == Some(0) {
            let set = |signal: &Signal| !signal.values.is_empty();
            assert!(self.signals.values().all(set), "all have a first value");
        }
        time
    }

    /// A change to another value.
    fn change(&mut self, time: u64, line: &str) {
        let (value, id) = match line.split_once(' ') {
            Some((value, id)) => (value, id),
            None => line.split_at(1),
        };
        let name = self.by_id.get(id).unwrap_or_else(|| panic!("{line}"));
        let signal = self.signals.get_mut(name).expect("it is declared");
        let value = match (&signal.kind[..], signal.bits, value.split_at(1)) {
            ("wire", 1, ("0" | "1", "")) => value.to_string(),
            ("string", _, ("s", text)) if !text.is_empty() => text.to_string(),
            ("wire" | "integer", 2.., ("b", digits)) => {
                let number = u64::from_str_radix(digits, 2).expect("binary digits");
                number.to_string()
            }
            _ => panic!("{name}: {line}"),
        };
        let last = signal.values.last();
        assert!(
            last.map_or(true, |last| last.1 != value),
            "{name} at {time}: no change"
        );
        signal.values.push((time, value));
    }

    pub fn has(&self, name: &str) -> bool {
        self.signals.contains_key(name)
    }

    /// The value in a tick.
    pub fn at(&self, name: &str, time: u64) -> &str {
        let signal = self.signals.get(name).unwrap_or_else(|| panic!("{name}"));
        let after = signal.values.partition_point(|(from, _)| *from <= time);
        &signal.values[after - 1].1
    }

    pub fn is_on(&self, name: &str, time: u64) -> bool {
        self.at(name, time) == "1"
    }
}
