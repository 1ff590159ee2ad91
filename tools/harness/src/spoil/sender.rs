//! The numbers of bits that hold the lines' senders.

use handler::Senders;

/// One of the five bits of a sender.
#[derive(Clone, Copy, Debug, PartialEq, Eq)]
pub enum Sent {
    /// The line was on in the last tick.
    On,
    /// That tick was its first.
    First,
    /// The pair was on in the last tick.
    Last,
    /// With that, where the right answer stands.
    Deep,
    /// The right answer of the coming tick.
    Answer,
}

impl Sent {
    /// All five.
    pub const ALL: [Sent; 5] = [Sent::On, Sent::First, Sent::Last, Sent::Deep, Sent::Answer];

    /// The field's name.
    pub fn name(self) -> &'static str {
        match self {
            Sent::On => "on",
            Sent::First => "first",
            Sent::Last => "last",
            Sent::Deep => "deep",
            Sent::Answer => "answer",
        }
    }

    /// The number that holds it.
    pub fn bits(self, senders: &mut Senders) -> &mut u32 {
        match self {
            Sent::On => &mut senders.on,
            Sent::First => &mut senders.first,
            Sent::Last => &mut senders.last,
            Sent::Deep => &mut senders.deep,
            Sent::Answer => &mut senders.answer,
        }
    }
}
