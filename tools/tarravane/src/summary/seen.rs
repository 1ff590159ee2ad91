//! How often something was, the first tick and the last.

#[derive(Clone, Copy, Default)]
pub struct Seen {
    pub count: u64,
    pub first: u64,
    pub last: u64,
}

impl Seen {
    pub fn add(&mut self, tick: u64) {
        self.count += 1;
        self.first = if self.count == 1 { tick } else { self.first };
        self.last = tick;
    }

    pub fn json(&self) -> Vec<(&'static str, String)> {
        vec![
            ("count", self.count.to_string()),
            ("first", self.first.to_string()),
            ("last", self.last.to_string()),
        ]
    }
}
