//! The ticks of a trace, one after another, so that memory stays bounded. The library runs each.
use super::tick::{Tick, MALFORMED};
use crate::progress::Progress;
use crate::source::filled;
use crate::trace::{cut, record};
use handler::{Access, Edition, Handler, Heard, Input, Wires, Word};
use std::io::Read;

pub struct Ticks<'a, R> {
    from: &'a mut R,
    name: &'a str,
    edition: Edition,
    handler: Handler,
    word: Word,
    wires: Wires,
    number: u64,
    left: usize,
}

/// A number that names no register in a tick by call, which has the newest numbers.
const NAMELESS: u16 = 3;

/// The access of a record as a tick by call has it.
pub(super) fn called(edition: Edition, access: Access, word: Word) -> Access {
    let number = |number| edition.registers().carry(number).unwrap_or(NAMELESS);
    match access {
        _ if word.refusal() == Some(MALFORMED) => Access::Malformed,
        Access::Read(register) => Access::Read(number(register)),
        Access::Write(register, value) => Access::Write(number(register), value),
        other => other,
    }
}

/// What the tick of a record hears: the library is asked for the same tick by call. In an older one nobody checks receive pairs.
fn heard(before: Handler, edition: Edition, input: &Input, word: Word) -> Heard {
    let access = called(edition, input.access, word);
    match edition.has_receive() {
        true => before.hear(access, input.sample),
        false => before.hear_unchecked(access, input.sample, input.answers),
    }
}

impl<'a, R: Read> Ticks<'a, R> {
    /// `from`: a trace after its N; `handler`: the one that N asks for; `name`: what a failed read calls the trace.
    pub fn new(from: &'a mut R, name: &'a str, edition: Edition, handler: Handler) -> Self {
        Ticks {
            from,
            name,
            edition,
            handler,
            word: Word::default(),
            wires: Wires::REST,
            number: 0,
            left: 0,
        }
    }

    /// The state after the ticks that were run.
    pub fn handler(&self) -> &Handler {
        &self.handler
    }

    /// How many ticks were run.
    pub fn number(&self) -> u64 {
        self.number
    }

    /// What is said at the end of a cut trace, where bytes are left that make no whole record.
    pub fn cut(&self) -> Option<String> {
        let cut = || format!("cut: {}", cut(self.left, self.number));
        (self.left > 0).then(cut)
    }

    /// The next tick; nothing after the last one.
    pub fn take(&mut self) -> Result<Option<Tick>, String> {
        let edition = self.edition;
        let mut record = vec![0; edition.bytes()];
        let have = filled(self.from, &mut record, self.name)?;
        if have < record.len() {
            self.left = have;
            return Ok(None);
        }
        let (before, last, last_wires) = (self.handler, self.word, self.wires);
        let mut words = [Word::default()];
        let (after, answer) = before.batch(edition, &record, &mut words);
        if let Err(refusal) = answer.value() {
            return Err(format!("the library refused a record by {}", refusal.0));
        }
        self.number += 1;
        (self.handler, self.word) = (after, words[0]);
        let input = record::input(edition, &record);
        self.wires = input.sample.alerts;
        Ok(Some(Tick {
            number: self.number,
            edition,
            heard: heard(before, edition, &input, words[0]),
            input,
            record,
            before,
            after,
            last,
            last_wires,
            word: words[0],
        }))
    }

    /// Hands over the ticks up to `to`, with progress; false where the trace ends before.
    pub fn walk<E: From<String>>(
        &mut self,
        to: u64,
        progress: &mut Progress,
        mut each: impl FnMut(&Tick) -> Result<(), E>,
    ) -> Result<bool, E> {
        while self.number < to {
            let tick = match self.take()? {
                Some(tick) => tick,
                None => {
                    progress.clear();
                    return Ok(false);
                }
            };
            each(&tick)?;
            if progress.is_due(tick.number) {
                progress.say(tick.number);
            }
        }
        progress.clear();
        Ok(true)
    }
}
