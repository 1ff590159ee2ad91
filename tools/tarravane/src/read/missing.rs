//! How much of a cut dump is missing at least.

/// The bytes up to N, and N's.
const MARK: usize = 4;
/// The bits of N and of the four classes.
const CLASSES: usize = 8 + 4 * (3 + 32 + 16);
/// The causes and locks of the local alerts, the locks of the classes and of the ping timer.
const FIXED: usize = 7 + 7 + 8 + 1;

/// The bytes before the number of stages, where there are n alerts: each has a cause and a lock.
fn head(n: usize) -> usize {
    MARK + (CLASSES + FIXED + 2 * n + 7) / 8
}

/// The fewest bytes that are missing of a start of a dump, which the reader has judged to be one: N and the number of stages
/// as far as they are there, and no more stages than they say.
pub fn missing(start: &[u8]) -> usize {
    let byte = |at: usize| start.get(at).copied().map_or(0, usize::from);
    let head = head(byte(MARK));
    let stages = byte(head) << 8 | byte(head + 1);
    head + 2 + 6 * stages - start.len()
}
