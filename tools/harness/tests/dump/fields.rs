//! A dump in plain Rust, field by field, so that a test can change one.

use handler::registers::{Field as Of, Register, Setting};
use handler::{Content, CLASSES, LOCALS};

/// What a field is.
#[derive(Clone, Copy, Debug, PartialEq, Eq)]
pub enum Kind {
    Mark,
    Alerts,
    State,
    Count,
    Accumulator,
    Cause(Register),
    Lock(Register),
    Padding,
    Number,
    /// A stage's register.
    Stage,
    /// A stage's value.
    Value,
}

/// A field: its bits and its value.
#[derive(Clone, Copy, Debug)]
pub struct Field {
    pub kind: Kind,
    pub width: usize,
    pub value: u64,
}

fn field(kind: Kind, width: usize, value: impl Into<u64>) -> Field {
    Field {
        kind,
        width,
        value: value.into(),
    }
}

/// Causes, then locks, the numbers rising.
fn bits(content: &Content) -> Vec<Field> {
    let locals = |of| (0..LOCALS).map(move |j| Register::Local(of, j));
    let alerts = |of| (0..content.n).map(move |i| Register::Alert(of, i));
    let cause = |it| field(Kind::Cause(it), 1, content.is_caused(it));
    let lock = |it| field(Kind::Lock(it), 1, content.is_locked(it));
    let both = [Setting::Regwen, Setting::ClrRegwen];
    let classes = (0..CLASSES).flat_map(|k| both.map(|it| Register::Class(k, it)));
    let causes = locals(Of::Cause).chain(alerts(Of::Cause)).map(cause);
    let sources = locals(Of::Regwen).chain(alerts(Of::Regwen));
    let locks = [Register::PingRegwen].into_iter().chain(sources);
    causes.chain(locks.chain(classes).map(lock)).collect()
}

/// The dump of a content.
pub fn fields(content: &Content) -> Vec<Field> {
    let mut all: Vec<Field> = b"TDMP".map(|byte| field(Kind::Mark, 8, byte)).to_vec();
    all.push(field(Kind::Alerts, 8, content.n as u64));
    for class in &content.classes {
        all.push(field(Kind::State, 3, class.state));
        all.push(field(Kind::Count, 32, class.count));
        all.push(field(Kind::Accumulator, 16, class.accum));
    }
    all.extend(bits(content));
    let used: usize = all.iter().map(|it| it.width).sum();
    all.push(field(Kind::Padding, (8 - used % 8) % 8, 0u64));
    let open = (0u64..).zip(content.stages).filter(|it| it.1 > 0);
    let open: Vec<(u64, u64)> = open.collect();
    all.push(field(Kind::Number, 16, open.len() as u64));
    for (number, code) in open {
        all.push(field(Kind::Stage, 16, number));
        all.push(field(Kind::Value, 32, code - 1));
    }
    all
}

/// The bytes, the highest bit first; zeros to a full byte at the end.
pub fn packed(fields: &[Field]) -> Vec<u8> {
    let bit = |it: &Field, at: usize| (it.value >> (it.width - 1 - at) & 1) as u8;
    let bits: Vec<u8> = fields
        .iter()
        .flat_map(|it| (0..it.width).map(move |at| bit(it, at)))
        .collect();
    let byte = |bits: &[u8]| {
        let all = bits.iter().fold(0, |all, bit| all << 1 | bit);
        all << (8 - bits.len())
    };
    bits.chunks(8).map(byte).collect()
}
