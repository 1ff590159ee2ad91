//! A bit for each alert: that of alert i is bit 63 - i % 64 of word i / 64.
use handler::WORDS;
use std::array::from_fn;

pub type AlertBits = [u64; WORDS];

fn bit(alert: usize) -> u64 {
    1 << (63 - alert % 64)
}

pub fn is_set(bits: &AlertBits, alert: usize) -> bool {
    bits[alert / 64] & bit(alert) != 0
}

pub fn put(bits: &mut AlertBits, alert: usize, on: bool) {
    match on {
        true => bits[alert / 64] |= bit(alert),
        false => bits[alert / 64] &= !bit(alert),
    }
}

/// The bits of all alerts below n.
pub fn below(n: usize) -> AlertBits {
    from_fn(|word| match n.saturating_sub(64 * word) {
        0 => 0,
        64.. => u64::MAX,
        some => !(u64::MAX >> some),
    })
}

pub fn count(bits: AlertBits) -> u32 {
    bits.iter().map(|word| word.count_ones()).sum()
}

/// The alerts whose bits are set, rising. Most ticks have none, so a word of zeros is passed over at once.
pub fn alerts(bits: AlertBits) -> impl Iterator<Item = usize> {
    (0..WORDS)
        .filter(move |word| bits[*word] != 0)
        .flat_map(|word| 64 * word..64 * (word + 1))
        .filter(move |alert| is_set(&bits, *alert))
}

#[cfg(test)]
mod tests {
    use super::*;

    #[test]
    fn alerts_stand_at_their_bits() {
        let mut bits = [0; WORDS];
        for alert in [0, 1, 63, 64, 127, 191, 192, 247] {
            put(&mut bits, alert, true);
            assert!(is_set(&bits, alert));
        }
        assert_eq!(bits, [0b11 << 62 | 1, 1 << 63 | 1, 1, 1 << 63 | 1 << 8]);
        assert_eq!(count(bits), 8);
        put(&mut bits, 63, false);
        assert!(!is_set(&bits, 63) && !is_set(&bits, 62) && !is_set(&bits, 246));
        let all: Vec<usize> = alerts(bits).collect();
        assert_eq!(all, [0, 1, 64, 127, 191, 192, 247]);
        assert_eq!(alerts([0; WORDS]).next(), None);
    }

    #[test]
    fn alerts_below_a_number() {
        for n in 0..=64 * WORDS {
            let all: Vec<usize> = alerts(below(n)).collect();
            assert_eq!(all, (0..n).collect::<Vec<_>>());
        }
    }
}
