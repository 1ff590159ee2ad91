//! What a comparison with the reference finds.

use super::receivers::bit;
use super::timer::told_apart;
use crate::spoil::Place;
use handler::{Handler, Wires};
use reference::Pairs;

/// Something that is not as the reference has it.
#[derive(Debug)]
pub struct Odd {
    /// The call.
    pub call: &'static str,
    /// The answer, output, word or field of the next state.
    pub field: String,
    /// What the reference has.
    pub reference: String,
    /// What the subject gave.
    pub got: String,
}

impl Odd {
    /// A field of a call, with both values as they are shown.
    pub fn new(
        call: &'static str,
        field: impl ToString,
        reference: impl ToString,
        got: impl ToString,
    ) -> Odd {
        Odd {
            call,
            field: field.to_string(),
            reference: reference.to_string(),
            got: got.to_string(),
        }
    }

    /// The first number of a call that differs: its name, the reference's, and the one that came.
    pub fn first(call: &'static str, pairs: &[(&str, i64, i64)]) -> Option<Odd> {
        let (field, reference, got) = pairs.iter().find(|pair| pair.1 != pair.2)?;
        Some(Odd::new(call, field, reference, got))
    }

    /// The first field of the next state that differs, what no rule ever reads
    /// apart.
    pub fn state(call: &'static str, wanted: &Handler, got: &Handler) -> Option<Odd> {
        Odd::exact(call, &told_apart(*wanted), &told_apart(*got))
    }

    /// The first field of the next state that differs, whatever it is.
    pub fn exact(call: &'static str, wanted: &Handler, got: &Handler) -> Option<Odd> {
        if wanted == got {
            return None;
        }
        let mut places = Place::all().into_iter();
        let place = places.find(|place| place.get(wanted) != place.get(got));
        let hex = |state| place.map_or(String::new(), |place| format!("{:#x}", place.get(state)));
        let name = place.map_or("a field without a name".to_string(), |place| {
            place.to_string()
        });
        Some(Odd::new(call, name, hex(wanted), hex(got)))
    }

    /// The first pair of 256 that differs.
    pub fn pairs(call: &'static str, name: &str, wanted: &Pairs, got: &Wires) -> Option<Odd> {
        if (wanted.pos, wanted.neg) == (got.pos, got.neg) {
            return None;
        }
        let wanted = |i| (bit(&wanted.pos, i), bit(&wanted.neg, i));
        let got = |i| (bit(&got.pos, i), bit(&got.neg, i));
        let i = (0..256).find(|i| wanted(*i) != got(*i))?;
        let show = |(p, n)| format!("({},{})", u8::from(p), u8::from(n));
        let field = format!("{name} pair {i}");
        Some(Odd::new(call, field, show(wanted(i)), show(got(i))))
    }

    /// The word at this place of a call's list.
    pub fn word(call: &'static str, at: usize, reference: u64, got: u64) -> Odd {
        let field = format!("word {at}");
        Odd::new(
            call,
            field,
            format!("{reference:016x}"),
            format!("{got:016x}"),
        )
    }
}
