//! The run over calm calls, one seed for each state.

use super::beside::{beside_plain, beside_reference, enough};
use super::joined::joined;
use super::met::{always_hit, Kind};
use super::plain::Plain;
use super::refused::{lists, refusal};
use super::start::{start, Start};
use super::subject::Calm;
use super::summary::Summary;
use super::way::{Way, WAYS, WEIGHTS};
use super::Found;
use crate::calls::Odd;
use crate::rng::Rng;
use crate::spoil::Place;
use crate::states::{Pool, BLOCK};
use handler::{LinePairs, Output, Wires, CHANGES};

/// The states in the default set.
pub const DEFAULT_CALMS: u64 = 10_000;

/// The plain ticks of a run.
fn length(way: Way, rng: &mut Rng) -> u32 {
    let ticks = match (way, rng.below(32)) {
        (Way::Counting, _) => return 65_500 + rng.below(1000) as u32,
        (Way::Twenty, _) => 160,
        (_, 0) => 400,
        (_, 1..=4) => 150,
        (_, 5..=9) => 5,
        _ => 60,
    };
    rng.below(ticks + 1) as u32
}

/// Runs plain ticks, and holds calls of some of their numbers against them:
/// the first few, those in which something moved and the ones after, the last.
fn plain_run(
    calm: Calm,
    start: &Start,
    ticks: u32,
    rng: &mut Rng,
    summary: &mut Summary,
) -> Option<(u32, Odd)> {
    let mut plain = Plain::new(&start.state);
    let list = enough(rng);
    let states = |plain: &Plain| plain.handler.classes.map(|class| class.state);
    let hit = always_hit(start);
    let mut moved = true;
    loop {
        let last = plain.ticks == ticks;
        let seldom = if ticks > 1000 { 4096 } else { 8 };
        if moved || last || (plain.ticks < 8 && rng.once_in(2)) || rng.once_in(seldom) {
            summary.plain += 1;
            if let Some(odd) = beside_plain(calm, start, &plain, &list) {
                return Some((plain.ticks, odd));
            }
        }
        if last {
            break;
        }
        let before = plain.clone();
        plain.tick(start.wires);
        summary.met.tick(hit, &before, &plain);
        moved = moved && plain.ticks < 2 || states(&before) != states(&plain);
    }
    summary.ticks += u64::from(plain.ticks);
    summary.changes[plain.changes.len().min(CHANGES)] += 1;
    summary.met.end(&plain);
    None
}

/// Calls beside the reference: of as many ticks as the plain run, and of fewer.
fn reference_run(
    calm: Calm,
    start: &Start,
    ticks: u32,
    rng: &mut Rng,
    summary: &mut Summary,
) -> Option<(u32, Odd)> {
    let fewer = rng.below(u64::from(ticks) + 1) as u32;
    let list = enough(rng);
    [ticks, fewer, 0].into_iter().find_map(|ticks| {
        let (known, odd) = beside_reference(calm, start, ticks, &list);
        summary.reference += u64::from(known);
        odd.map(|odd| (ticks, odd))
    })
}

/// What 0 ticks of a state are to show.
fn note_no_ticks(start: &Start, summary: &mut Summary) {
    let mut plain = Plain::new(&start.state);
    let met = &mut summary.met;
    met.note(Kind::NoTicks, true);
    met.note(Kind::NoTicksLine, plain.output.lines != 0);
    plain.tick(start.wires);
    let Output {
        acknowledge, ping, ..
    } = plain.output;
    let pairs = acknowledge != Wires::REST || ping != Wires::REST;
    let sent = plain.output.escalation != LinePairs::REST;
    met.note(Kind::NoTicksPairs, pairs || sent);
}

/// All that is tried of one state; the ticks of the call that differs.
fn try_one(
    calm: Calm,
    way: Way,
    start: &Start,
    rng: &mut Rng,
    summary: &mut Summary,
) -> Option<(u32, Odd)> {
    if refusal(&start.state, CHANGES).is_some() {
        return lists(calm, start, rng, summary);
    }
    summary.start(start);
    let ticks = length(way, rng);
    plain_run(calm, start, ticks, rng, summary)
        .or_else(|| reference_run(calm, start, ticks, rng, summary))
        .or_else(|| {
            note_no_ticks(start, summary);
            summary.joined += 1;
            joined(calm, start, rng, &mut summary.met)
        })
        .or_else(|| match rng.once_in(8) {
            true => lists(calm, start, rng, summary),
            false => None,
        })
}

/// Tries states from a seed on until a call of one differs or the number is
/// reached.
pub fn try_calms(calm: Calm, seed: u64, states: u64, summary: &mut Summary) -> Option<Found> {
    let places = Place::all();
    let mut pool = Pool::new(seed / BLOCK);
    for place in 0..states {
        let seed = seed.wrapping_add(place);
        if seed / BLOCK != pool.block {
            pool = Pool::new(seed / BLOCK);
        }
        let mut rng = Rng::new(seed ^ (0xCA << 56));
        let kept = pool.states[(seed % BLOCK) as usize];
        let (way, name) = WAYS[rng.weighted(&WEIGHTS)];
        let start = start(way, &kept, &places, &mut rng);
        summary.states += 1;
        summary.ways[way as usize] += 1;
        if let Some((ticks, odd)) = try_one(calm, way, &start, &mut rng, summary) {
            return Some(Found {
                seed,
                way: name,
                what: format!("{ticks} calm ticks"),
                odd,
            });
        }
    }
    None
}
