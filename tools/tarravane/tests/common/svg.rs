//! What stands in a picture.
use super::ran::Brief;
use handler::registers::LETTERS;

/// The texts of a kind.
pub fn texts(picture: &str, class: &str) -> Vec<String> {
    let start = format!("<text class=\"{class}\"");
    let of = |part: &str| {
        let (_, rest) = part.split_once('>').expect("a tag ends");
        rest.split_once('<').expect("it is closed").0.to_string()
    };
    picture.split(&start).skip(1).map(of).collect()
}

/// The spans of a lane: what is said of it, first and last tick.
pub fn spans(picture: &str, lane: &str) -> Vec<(String, u64, u64)> {
    let start = format!("<title>{lane}: ");
    let of = |part: &str| {
        let (title, _) = part.split_once('<').expect("it is closed");
        let (words, ticks) = title.split_once(", tick").expect("ticks");
        let ticks = ticks.trim_start_matches('s').trim_start();
        let (first, last) = ticks.split_once(" to ").unwrap_or((ticks, ticks));
        let number = |text: &str| text.parse().expect("a tick");
        (words.to_string(), number(first), number(last))
    };
    picture.split(&start).skip(1).map(of).collect()
}

fn state_name(number: u32) -> &'static str {
    match number {
        0 => "Idle",
        1 => "Timeout",
        3 => "Terminal",
        4 => "Phase 0",
        5 => "Phase 1",
        6 => "Phase 2",
        _ => "Phase 3",
    }
}

/// Does the line of what never moves name it?
fn is_still(picture: &str, one: &str, many: &str, name: char, what: &str) -> bool {
    let lines = texts(picture, "still");
    let mut parts = lines.iter().flat_map(|line| line.split("; "));
    parts.any(|part| match part.split_once(": ") {
        Some((names, is)) => {
            let names = names.strip_prefix(many).or_else(|| names.strip_prefix(one));
            is == what && names.map_or(false, |names| names.contains(name))
        }
        None => false,
    })
}

/// Spans follow each other from the first tick to the last, and each state is that of all its ticks; a class without a span is Idle.
fn check_states(picture: &str, all: &[Brief], k: usize, from: u64, to: u64) {
    let mut next = from;
    if is_still(picture, "class ", "classes ", LETTERS[k], "Idle") {
        let all = &all[from as usize - 1..to as usize];
        assert!(all.iter().all(|t| t.states[k] == 0));
        assert!(spans(picture, &format!("class {}", LETTERS[k])).is_empty());
        return;
    }
    for (state, first, last) in spans(picture, &format!("class {}", LETTERS[k])) {
        assert_eq!(first, next);
        next = last + 1;
        let all = &all[first as usize - 1..last as usize];
        match &state[..] {
            "several states" => assert!(all.iter().any(|t| t.states[k] != all[0].states[k])),
            _ => assert!(all.iter().all(|t| state_name(t.states[k]) == state)),
        }
    }
    assert_eq!(next, to + 1);
}

/// It is on in all ticks of each span, or on and off in those of a fold, and off in all others.
fn check_output(picture: &str, lane: &str, on: &[bool], from: u64, to: u64) {
    let mut next = from as usize;
    for (words, first, last) in spans(picture, lane) {
        let (first, last) = (first as usize, last as usize);
        assert!(
            !on[next - 1..first - 1].contains(&true),
            "{lane} before {first}"
        );
        next = last + 1;
        let inside = &on[first - 1..last];
        assert!(inside.contains(&true), "{lane} from {first}");
        assert_eq!(inside.contains(&false), words == "on and off", "{lane}");
    }
    assert!(
        !on[next - 1..to as usize].contains(&true),
        "{lane} from {next}"
    );
}

/// States, interrupts and lines of these ticks are those of the library.
pub fn check_spans(picture: &str, all: &[Brief], from: u64, to: u64) {
    for k in 0..4 {
        check_states(picture, all, k, from, to);
        let interrupts: Vec<bool> = all.iter().map(|t| t.word.interrupt(k)).collect();
        let lines: Vec<bool> = all.iter().map(|t| t.word.line(k)).collect();
        let name = format!("interrupt {}", LETTERS[k]);
        check_output(picture, &name, &interrupts, from, to);
        check_output(picture, &format!("line {k}"), &lines, from, to);
        let names = texts(picture, "lane");
        let still = is_still(picture, "interrupt ", "interrupts ", LETTERS[k], "off");
        assert_eq!(still, !names.contains(&name));
        let line = char::from(b'0' + k as u8);
        let still = is_still(picture, "line ", "lines ", line, "off");
        assert_eq!(still, !names.contains(&format!("line {k}")));
    }
}

/// The largest picture.
pub const MOST_BYTES: usize = 1_000_000;

/// The numbers of the ticks that are shown one by one, level or running down.
pub fn numbers(picture: &str) -> Vec<String> {
    [texts(picture, "number"), texts(picture, "number level")].concat()
}

/// There is room for 80 ticks, a fold taking that of two; the legend has a tear too.
pub fn check_size(picture: &str) {
    assert!(picture.len() < MOST_BYTES, "{} bytes", picture.len());
    let ticks = numbers(picture).len();
    let folds = picture.matches("class=\"tear\"").count() - 1;
    assert!(ticks + 2 * folds <= 80, "{ticks} ticks, {folds} folds");
}
