//! The spans in which a class drives a line.
use super::kept::Kept;
use super::telling::Telling;
use crate::facts::lines::drives;
use crate::facts::tick::Tick;
use crate::json::{maybe, object};

struct Span {
    line: usize,
    from: u64,
    /// The last tick; none where the line is still on.
    to: Option<u64>,
}

#[derive(Default)]
pub struct Spans(Kept<Span>);

impl Spans {
    /// The tick begins and ends spans of class k.
    pub fn add(&mut self, t: &Tick, k: usize) {
        for line in 0..4 {
            match [&t.before, &t.after].map(|h| drives(&h.classes[k], line)) {
                [false, true] => {
                    self.0.push(Span {
                        line,
                        from: t.number,
                        to: None,
                    });
                }
                [true, false] => self.end(line, t.number - 1),
                _ => {}
            }
        }
    }

    fn end(&mut self, line: usize, last: u64) {
        let mut open = self.0.iter_mut();
        if let Some(span) = open.find(|span| span.line == line && span.to.is_none()) {
            span.to = Some(last);
        }
    }

    pub fn json(&self) -> String {
        self.0.json(|span| {
            object(&[
                ("line", span.line.to_string()),
                ("from", span.from.to_string()),
                ("to", maybe(span.to)),
            ])
        })
    }

    pub fn words(&self, told: &Telling) -> String {
        let span = |span: &Span| {
            let ticks = told.span(span.from, span.to, "on");
            format!("line {} {ticks}", span.line)
        };
        match self.0.count() {
            0 => "no line".to_string(),
            _ => self.0.words(span),
        }
    }
}
