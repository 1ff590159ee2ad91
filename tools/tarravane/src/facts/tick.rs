//! One tick.
use handler::registers::Register;
use handler::{Access, Edition, Handler, Heard, Input, Refusal, Sample, Wires, Word};

/// The refusal of a malformed record.
pub const MALFORMED: Refusal = Refusal(5);

pub struct Tick {
    /// The first record is tick 1.
    pub number: u64,
    pub edition: Edition,
    pub record: Vec<u8>,
    /// What the record holds; the register has the edition's number.
    pub input: Input,
    pub before: Handler,
    pub after: Handler,
    /// What the tick hears, as the library says.
    pub heard: Heard,
    /// The word of the tick before; 0 before the first.
    pub last: Word,
    /// The alerts' wires in the tick before; at rest before the first.
    pub last_wires: Wires,
    pub word: Word,
}

impl Tick {
    /// What there is before the first tick, as a tick: a new handler, no access, all wires at rest.
    pub fn before_first(edition: Edition, new: Handler) -> Tick {
        Tick {
            number: 0,
            edition,
            record: Vec::new(),
            input: Input::new(Access::Nothing, Sample::AT_REST),
            before: new,
            after: new,
            heard: new.hear(Access::Nothing, Sample::AT_REST),
            last: Word::default(),
            last_wires: Wires::REST,
            word: Word::default(),
        }
    }

    /// The register that is read or written, where the edition has it.
    pub fn register(&self) -> Option<Register> {
        match self.input.access {
            Access::Read(number) | Access::Write(number, _) => {
                self.edition.registers().register(number)
            }
            _ => None,
        }
    }

    pub fn is_malformed(&self) -> bool {
        self.word.refusal() == Some(MALFORMED)
    }
}
