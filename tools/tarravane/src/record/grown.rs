//! A trace that grows by the lines of a text. The bytes of a tick's record are written for it; bytes that the text has itself
//! are passed as they are. Memory stays bounded: what is written goes to the spool.
use super::run::Run;
use super::warnings::Warnings;
use crate::names;
use crate::source::AT_ONCE;
use crate::spool::Spool;
use crate::text::line::Line;
use crate::trace::record::written;
use crate::trace::Start;
use handler::{Access, Edition, Input, Refusal};

pub struct Grown {
    /// Nothing before the first line.
    start: Option<Start>,
    /// Has the spool the start?
    begun: bool,
    spool: Spool,
    /// Ticks that are not written yet, and the line of each: the writer is asked for many at once.
    inputs: Vec<Input>,
    lines: Vec<u64>,
    cut: bool,
    /// The ticks as the library runs them; nothing where N is refused.
    run: Option<Run>,
}

/// Why there is no record of such an input, if there is none.
fn refused(edition: Edition, input: &Input) -> Option<String> {
    let refusal = written(edition, &[*input]).err()?;
    Some(match input.access {
        Access::Read(register) | Access::Write(register, _) if refusal == Refusal::NO_RECORD => {
            format!("no record holds register {register}")
        }
        _ => names::refusal(refusal, false).to_string(),
    })
}

impl Grown {
    pub fn new(spool: Spool) -> Grown {
        Grown {
            start: None,
            begun: false,
            spool,
            inputs: Vec::new(),
            lines: Vec::new(),
            cut: false,
            run: None,
        }
    }

    /// The edition, where the text has come to it.
    pub fn edition(&self) -> Option<Edition> {
        self.start.map(|start| start.edition)
    }

    /// N, where the text has come to it.
    pub fn n(&self) -> Option<u8> {
        self.start().n
    }

    /// What the trace begins with; a text without a line gives no byte.
    pub fn start(&self) -> Start {
        self.start.unwrap_or(Start::EMPTY)
    }

    /// The text has come to its edition, or to N.
    pub fn begin(&mut self, edition: Edition, n: Option<u8>) {
        let start = Start { edition, n };
        self.start = Some(start);
        self.run = start.made().ok().map(|handler| Run::new(edition, handler));
    }

    pub fn is_cut(&self) -> bool {
        self.cut
    }

    /// Adds a line so many times.
    pub fn add(
        &mut self,
        number: u64,
        times: u32,
        line: &Line,
        warnings: &mut Warnings,
    ) -> Result<(), String> {
        if self.cut {
            return Err(format!("line {number}: nothing follows cut"));
        }
        for _ in 0..times {
            match line {
                Line::Tick(input, 0) => self.add_tick(number, *input, warnings)?,
                Line::Tick(input, sound) => self.add_sound(number, *input, *sound, warnings)?,
                Line::Raw(record) => {
                    self.write(warnings)?;
                    self.keep(record, &[number], warnings)?;
                }
                Line::Cut(left) => {
                    self.cut = true;
                    self.write(warnings)?;
                    self.keep(left, &[], warnings)?;
                }
            }
        }
        Ok(())
    }

    fn add_tick(
        &mut self,
        number: u64,
        input: Input,
        warnings: &mut Warnings,
    ) -> Result<(), String> {
        self.inputs.push(input);
        self.lines.push(number);
        match self.inputs.len() {
            AT_ONCE => self.write(warnings),
            _ => Ok(()),
        }
    }

    /// A tick in which the receivers of these lines are sound. Where N is refused no tick runs, and their pairs stay at rest.
    fn add_sound(
        &mut self,
        number: u64,
        mut input: Input,
        sound: u32,
        warnings: &mut Warnings,
    ) -> Result<(), String> {
        self.write(warnings)?;
        if let Some(run) = &self.run {
            input.sample.receive = run.answer(sound, input.sample.receive);
        }
        self.add_tick(number, input, warnings)
    }

    /// Keeps bytes, which are records of these lines or what is left after the last.
    fn keep(&mut self, bytes: &[u8], lines: &[u64], warnings: &mut Warnings) -> Result<(), String> {
        let failed = |e| format!("cannot keep the trace: {e}");
        if !self.begun {
            self.begun = true;
            self.spool.add(&self.start().bytes()).map_err(failed)?;
        }
        if let Some(run) = &mut self.run {
            run.go(bytes, lines, warnings);
        }
        self.spool.add(bytes).map_err(failed)
    }

    /// Has the ticks that are left written.
    pub fn write(&mut self, warnings: &mut Warnings) -> Result<(), String> {
        let records = written(self.start().edition, &self.inputs);
        let records = records.map_err(|refusal| self.first_refused(refusal))?;
        let lines = std::mem::take(&mut self.lines);
        self.inputs.clear();
        self.keep(&records, &lines, warnings)
    }

    /// All of it; the lines that staged and were never committed are warned of.
    pub fn end(self, warnings: &mut Warnings) -> Spool {
        if let Some(run) = &self.run {
            run.end(warnings);
        }
        self.spool
    }

    /// The first line whose tick is refused, and why.
    fn first_refused(&self, refusal: Refusal) -> String {
        let why = |input| refused(self.start().edition, input);
        let all = self.lines.iter().zip(&self.inputs);
        let mut bad = all.filter_map(|(line, input)| Some((line, why(input)?)));
        match bad.next() {
            Some((line, why)) => format!("line {line}: {why}"),
            None => format!("the library refused the ticks by {}", refusal.0),
        }
    }
}
