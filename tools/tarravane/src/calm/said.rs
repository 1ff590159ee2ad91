//! What calm ticks do, in words.
use crate::names::{self, whole_state};
use handler::registers::{Setting, LETTERS};
use handler::{Class, Handler, Output, Refusal, CLASSES, LINES};

/// The names of the bits that are 1, or `none`.
fn named(bits: u32, name: impl Fn(usize) -> String) -> String {
    let on = (0..LINES).filter(|at| bits >> at & 1 == 1);
    let names: Vec<String> = on.map(name).collect();
    match names.is_empty() {
        true => "none".to_string(),
        false => names.join(", "),
    }
}

/// The lines and interrupts that are on.
pub fn outputs(output: &Output) -> String {
    let lines = named(output.lines, |e| e.to_string());
    let interrupts = named(output.interrupts, |k| LETTERS[k].to_string());
    format!("lines on: {lines}; interrupts on: {interrupts}")
}

/// The lines that are other than before: `line 0 off, lines 1, 2 on`.
pub fn lines(was: u32, is: u32) -> String {
    let part = |bits: u32, to: &str| {
        let s = if bits.count_ones() > 1 { "s" } else { "" };
        let names = named(bits, |e| e.to_string());
        (bits != 0).then(|| format!("line{s} {names} {to}"))
    };
    let parts = [part(was & !is, "off"), part(is & !was, "on")];
    parts.into_iter().flatten().collect::<Vec<_>>().join(", ")
}

/// The classes that are in another state than before, and in which.
pub fn moved(was: &Handler, is: &Handler) -> String {
    let moved = (0..CLASSES).filter(|k| was.classes[*k].state != is.classes[*k].state);
    let words = moved.map(|k| format!("{} {}", LETTERS[k], whole_state(is.classes[k].state)));
    words.collect::<Vec<_>>().join(", ")
}

/// The count of a class in Timeout or a phase, with what ends that.
fn count(class: &Class) -> Option<String> {
    let (setting, limit) = match class.state {
        1 => (Setting::TimeoutCyc, class.timeout),
        4..=7 => {
            let p = class.state as usize - 4;
            (Setting::PHASES[p], class.lengths[p])
        }
        _ => return None,
    };
    let (count, name) = (class.count, setting.name());
    Some(format!("ESC_CNT {count} of {name} {limit}"))
}

/// A class as it is.
pub fn class(k: usize, class: &Class) -> String {
    let state = Some(whole_state(class.state).to_string());
    let accum = (class.accum > 0).then(|| format!("ACCUM_CNT {}", class.accum));
    let parts: Vec<String> = [state, count(class), accum].into_iter().flatten().collect();
    format!("class {}: {}", LETTERS[k], parts.join(", "))
}

/// Why there are no calm ticks.
pub fn refused(refusal: Refusal) -> String {
    let (why, number) = (names::refusal(refusal, false), refusal.0);
    let means = match refusal {
        Refusal::TIMER_ON => {
            ": its pings go by entropy words that nobody knows ahead, so no tick is calm"
        }
        _ => "",
    };
    format!("refused: {why} ({number}){means}")
}

#[cfg(test)]
mod tests {
    use super::*;

    #[test]
    fn lines_are_told_by_what_they_do() {
        for (was, is, said) in [
            (0, 1, "line 0 on"),
            (1, 2, "line 0 off, line 1 on"),
            (0b0011, 0b1100, "lines 0, 1 off, lines 2, 3 on"),
            (0b1111, 0, "lines 0, 1, 2, 3 off"),
            (0b1001, 0b1010, "line 0 off, line 1 on"),
        ] {
            assert_eq!(lines(was, is), said);
        }
    }

    #[test]
    fn a_class_is_told_with_what_ends_it() {
        let mut h = Handler::new(1).0;
        let c = &mut h.classes[2];
        assert_eq!(class(2, c), "class C: Idle");
        (c.timeout, c.lengths) = (9, [3, 0, 5, u32::MAX]);
        (c.state, c.count, c.accum) = (1, 4, 65535);
        assert_eq!(
            class(2, c),
            "class C: Timeout, ESC_CNT 4 of TIMEOUT_CYC 9, ACCUM_CNT 65535"
        );
        (c.state, c.count, c.accum) = (7, 1, 0);
        assert_eq!(
            class(2, c),
            "class C: Phase 3, ESC_CNT 1 of PHASE3_CYC 4294967295"
        );
        (c.state, c.count, c.accum) = (3, 0, 7);
        assert_eq!(class(2, c), "class C: Terminal, ACCUM_CNT 7");
    }

    #[test]
    fn the_widest_row_has_room() {
        let mut is = Handler::new(1).0;
        let was = is;
        is.classes.iter_mut().for_each(|class| class.state = 3);
        let row = format!(
            "tick {0}, trace tick {0}0: {1}; {2}",
            u32::MAX,
            lines(0b0011, 0b1100),
            moved(&was, &is)
        );
        assert_eq!(row.len(), 118);
        assert!(refused(Refusal::TIMER_ON).len() <= 120);
    }
}
