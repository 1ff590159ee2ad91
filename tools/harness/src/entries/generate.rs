//! Lists at random, of every way.

use super::lent::{Entries, GUARD, LISTS, UNITS};
use super::row::Row;
use super::spoil::{spoil, Way, WAYS};
use crate::configure::configure;
use crate::record::WRITE;
use crate::rng::Rng;
use handler::registers::{Field, Setting, INTR_ENABLE, MAP, PING_ENABLE};

/// The most entries of a list.
const MOST: usize = 40;

impl Entries {
    /// A list of up to 40 entries; half of the longer ones set up a handler
    /// first, so that the samples show in the words.
    pub fn new(rng: &mut Rng) -> Entries {
        let way = WAYS[rng.weighted(&WAYS.map(|way| way.2))].0;
        let n = rng.pick(&[1, 9, 64, 65, 128, 192, 247, 248]);
        let (few, any) = (rng.index(4), rng.index(MOST + 1));
        let count = rng.pick(&[few, any, any, MOST]);
        let mut rows: Vec<Row> = (0..count).map(|_| Row::good(rng)).collect();
        if count >= 14 && rng.once_in(2) {
            set_up(rng, n, &mut rows);
        }
        spoil(way, rng, &mut rows);
        let entries = Entries::of(way, n, &rows, rng);
        if way == Way::Unequal {
            return entries.cut(unequal(rng, rows.len()));
        }
        entries
    }
}

/// Enables the first and last alert, local 2, class 0, the interrupts and the
/// ping timer.
fn set_up(rng: &mut Rng, n: usize, rows: &mut [Row]) {
    let writes = [
        (INTR_ENABLE, 15),
        (MAP.alert(Field::En, 0), 1),
        (MAP.alert(Field::En, n - 1), 1),
        (MAP.local(Field::En, 2), rng.below(2) as u32),
        (MAP.class(0, Setting::Ctrl), 0x393D),
        (MAP.alert(Field::Regwen, 0), rng.below(2) as u32),
        (MAP.local(Field::En, rng.index(2)), 1),
        (PING_ENABLE, rng.below(2) as u32),
    ];
    let writes = writes.into_iter();
    let writes = writes.flat_map(|(register, value)| configure(MAP, register, value));
    for (row, (register, value)) in rows.iter_mut().zip(writes) {
        (row.kind, row.register, row.value) = (WRITE, register, value);
    }
}

/// Lengths around those of `count` entries that do not fit together.
fn unequal(rng: &mut Rng, count: usize) -> [usize; LISTS] {
    let mut lengths = UNITS.map(|unit| count * unit);
    let changes = 1 + rng.below(3);
    while lengths == UNITS.map(|unit| lengths[0] * unit) {
        for _ in 0..changes {
            let at = rng.index(LISTS);
            let (unit, need) = (UNITS[at], count * UNITS[at]);
            let shorter = need.saturating_sub(1 + rng.index(3));
            let fewer = need.saturating_sub(unit);
            let longer = need + 1 + rng.index(GUARD * unit);
            lengths[at] = rng.pick(&[shorter, fewer, longer, need + unit, count, 0]);
        }
    }
    lengths
}

#[cfg(test)]
mod tests {
    use super::*;
    use crate::record::largest;
    use handler::Edition;

    #[test]
    fn only_good_rows_are_held_by_a_record() {
        let mut rng = Rng::new(6);
        let most = largest(Edition::NEWEST);
        let held = |row: &Row| match row.kind {
            0 => row.register == 0 && row.value == 0,
            1 => row.register <= most && row.value == 0,
            2 => row.register <= most,
            _ => false,
        };
        for _ in 0..5000 {
            let entries = Entries::new(&mut rng);
            let rows = entries.lent().rows();
            let bad = rows.iter().filter(|row| !held(row)).count();
            let same = entries.lent().even();
            match entries.way {
                Way::Good => assert!(same && bad == 0),
                Way::Unequal => assert!(!same && bad == 0),
                Way::Several => assert!(same && (1..=3).contains(&bad)),
                _ => assert!(same && bad == 1, "{:?}", entries.way),
            }
            assert!(rows.len() <= MOST);
        }
    }
}
