//! A writer with a slip: the reference's writer with one thing done otherwise.

use handler::{Answer, Edition, WORDS};
use harness::entries::{Entries, Lent, Row, Way};
use harness::record::{largest, pack, Head, Tail, WRITTEN_BYTES};
use harness::rng::Rng;
use harness::write::reference_record;

/// A call of the writer, and what is right for it.
pub struct Call<'a> {
    /// The list.
    pub list: Lent<'a>,
    /// The buffer before the call.
    pub before: &'a [u8],
    /// The right answer.
    pub answer: i64,
}

impl Call<'_> {
    /// The bytes that the records of all kinds need.
    pub fn need(&self) -> usize {
        self.list.kinds.len() * WRITTEN_BYTES
    }

    /// The bytes that are rightly written.
    pub fn written(&self) -> usize {
        usize::try_from(self.answer).unwrap_or(0)
    }

    /// Whether it is refused for bad entries at these places alone.
    fn bad_only_at(&self, places: fn(usize, usize) -> bool) -> bool {
        let rows = self.list.rows();
        let fits = self.list.even() && self.before.len() >= self.need();
        let passes = |at: usize| places(at, rows.len()) || held(&rows[at]);
        self.answer == -10 && fits && (0..rows.len()).all(passes)
    }
}

/// What the writer does otherwise, after the name of the slip.
pub enum Slip {
    /// It takes each entry for another one.
    Takes(&'static str, fn(&mut Row)),
    /// It takes other slices.
    Slices(&'static str, fn(Lent) -> Lent),
    /// It refuses some calls with this answer.
    Refuses(&'static str, i64, fn(&Call) -> bool),
    /// It does not check the entries at some places of so many.
    Unchecked(&'static str, fn(usize, usize) -> bool),
    /// It changes the buffer once more at the end.
    Writes(&'static str, fn(&Call, &mut [u8])),
    /// It answers another number.
    Answers(&'static str, fn(&Call) -> i64),
}

impl Slip {
    /// What goes wrong.
    pub fn name(&self) -> &'static str {
        match self {
            Slip::Takes(name, _)
            | Slip::Slices(name, _)
            | Slip::Refuses(name, _, _)
            | Slip::Unchecked(name, _)
            | Slip::Writes(name, _)
            | Slip::Answers(name, _) => name,
        }
    }

    /// The writer.
    pub fn record(&self, list: Lent, out: &mut [u8]) -> Answer {
        let before = out.to_vec();
        let call = Call {
            list,
            before: &before,
            answer: reference_record(list, &mut before.clone()).0,
        };
        match self {
            // Slices of unequal lengths are refused for any entries.
            Slip::Takes(_, change) if list.even() => take(list, *change, out),
            Slip::Slices(_, change) => reference_record(change(list), out),
            Slip::Refuses(_, answer, when) if when(&call) => Answer(*answer),
            Slip::Unchecked(_, places) if call.bad_only_at(*places) => {
                pour(&list.rows(), out);
                Answer(call.need() as i64)
            }
            Slip::Writes(_, change) => {
                let answer = reference_record(list, out);
                change(&call, out);
                answer
            }
            Slip::Answers(_, answer) => {
                reference_record(list, out);
                Answer(answer(&call))
            }
            _ => reference_record(list, out),
        }
    }
}

/// Writes the list with every entry changed.
fn take(list: Lent, change: fn(&mut Row), out: &mut [u8]) -> Answer {
    let mut rows = list.rows();
    rows.iter_mut().for_each(change);
    let entries = Entries::of(Way::Good, 1, &rows, &mut Rng::new(0));
    reference_record(entries.lent(), out)
}

/// Whether a well-formed record holds the entry.
pub fn held(row: &Row) -> bool {
    let (kind, register, value) = ([row.kind], [row.register], [row.value]);
    let (wires, mut out) = ([[0; WORDS]], [0; WRITTEN_BYTES]);
    let (sides, word) = ([&wires, &wires], [row.word]);
    let receive = [reference::LinePairs::at_rest()];
    reference::record(
        &kind, &register, &value, sides[0], sides[1], &word, &receive, &mut out,
    ) > 0
}

/// Writes all that fits, whatever the entries are.
pub fn pour(rows: &[Row], out: &mut [u8]) {
    let newest = Edition::NEWEST;
    for (row, place) in rows.iter().zip(out.chunks_exact_mut(WRITTEN_BYTES)) {
        let register = row.register & largest(newest);
        let head = Head::new(row.kind & 3, register, row.value);
        let wires = (row.wires.pos, row.wires.neg);
        let tail = Tail::wired(row.word, row.pairs());
        place.copy_from_slice(&pack(newest, head, wires, tail));
    }
}
