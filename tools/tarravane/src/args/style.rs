//! The words by which things are named: `--papers`, `--names`, `--start TIME` and `--tick SECONDS`.
use super::words::{once, Words};
use crate::clock::Clock;
use crate::style::Style;
use handler::registers::Naming;

#[derive(Default)]
pub struct Named {
    papers: bool,
    names: bool,
    start: Option<String>,
    tick: Option<String>,
}

impl Named {
    /// Takes an option of these; false where it is another one.
    pub fn take(&mut self, option: &str, words: &mut Words) -> Result<bool, String> {
        let place = match option {
            "--papers" => {
                self.papers = true;
                return Ok(true);
            }
            "--names" => {
                self.names = true;
                return Ok(true);
            }
            "--start" => &mut self.start,
            "--tick" => &mut self.tick,
            _ => return Ok(false),
        };
        let wants = match option {
            "--start" => "--start wants a time, as 2026-03-01T04:00:00Z",
            _ => "--tick wants seconds, as 0.001",
        };
        let given = words.value(wants)?.to_string();
        once(place, given, &format!("{option} stands twice"))?;
        Ok(true)
    }

    pub fn style(self) -> Result<Style, String> {
        let clock = match (self.start, self.tick) {
            (None, None) => None,
            (Some(start), Some(tick)) => Some(Clock::parse(&start, &tick)?),
            _ => return Err("--start and --tick go together".to_string()),
        };
        let naming = if self.papers {
            Naming::Papers
        } else {
            Naming::Ours
        };
        Ok(Style {
            naming,
            names: self.names,
            clock,
        })
    }
}
