//! The bits of a dump, most significant first, one after the other.

use crate::answer::Refusal;

/// Puts fields together to bytes.
pub(crate) struct Writer {
    bytes: Vec<u8>,
    /// The bits put so far.
    bits: usize,
}

impl Writer {
    pub(crate) fn new() -> Writer {
        Writer {
            bytes: Vec::new(),
            bits: 0,
        }
    }

    /// Adds a field of up to 32 bits.
    pub(crate) fn put(&mut self, width: usize, value: u32) {
        for at in (0..width).rev() {
            if self.bits % 8 == 0 {
                self.bytes.push(0);
            }
            let bit = (value >> at) as u8 & 1;
            self.bytes[self.bits / 8] |= bit << (7 - self.bits % 8);
            self.bits += 1;
        }
    }

    /// Adds zeros to a full byte.
    pub(crate) fn fill(&mut self) {
        self.bits = 8 * self.bytes.len();
    }

    pub(crate) fn into_bytes(self) -> Vec<u8> {
        self.bytes
    }
}

/// Takes bytes apart into fields. The bytes may end within a field or before
/// it; it can then still become any value that begins with the bits there are.
pub(crate) struct Reader<'a> {
    bytes: &'a [u8],
    /// The bits taken so far.
    bits: usize,
}

impl Reader<'_> {
    pub(crate) fn new(bytes: &[u8]) -> Reader<'_> {
        Reader { bytes, bits: 0 }
    }

    /// Takes a field of up to 32 bits. `possible` says whether one of the values
    /// from its first to its second argument, both included, may stand there:
    /// these are all that the field can become, for a whole field its own value
    /// twice. Without such a value the dump is broken, and else a field that is
    /// not there as a whole is where it was cut.
    pub(crate) fn take(
        &mut self,
        width: usize,
        possible: impl Fn(u32, u32) -> bool,
    ) -> Result<u32, Refusal> {
        let there = width.min(self.left());
        let missing = width - there;
        let mut start = 0u64;
        for _ in 0..there {
            start = start << 1 | u64::from(self.bit());
        }
        let lowest = start << missing;
        let highest = lowest + (1 << missing) - 1;
        if !possible(lowest as u32, highest as u32) {
            return Err(Refusal::BrokenDump);
        }
        if missing > 0 {
            return Err(Refusal::CutDump);
        }
        Ok(lowest as u32)
    }

    /// Takes a bit that may be either.
    pub(crate) fn flag(&mut self) -> Result<bool, Refusal> {
        Ok(self.take(1, |_, _| true)? == 1)
    }

    /// Takes the zeros to a full byte.
    pub(crate) fn fill(&mut self) -> Result<(), Refusal> {
        while self.bits % 8 != 0 {
            self.take(1, |lowest, _| lowest == 0)?;
        }
        Ok(())
    }

    /// The bits that are still to be taken.
    pub(crate) fn left(&self) -> usize {
        8 * self.bytes.len() - self.bits
    }

    /// Takes one bit that is there.
    fn bit(&mut self) -> u8 {
        let bit = self.bytes[self.bits / 8] >> (7 - self.bits % 8) & 1;
        self.bits += 1;
        bit
    }
}
